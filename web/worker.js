// A worker: first it is given the module, then calls, which it answers in their order.
let engine;
onmessage = ({ data }) => {
  if (data.module) {
    engine = new Engine(data.module);
    return;
  }
  const { id, name, text, states } = data;
  try {
    postMessage({ id, told: engine.call(name, text, states) });
  } catch (fault) {
    postMessage({ id, fault: String(fault && fault.message || fault) });
  }
};
