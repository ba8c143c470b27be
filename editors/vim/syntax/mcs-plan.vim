" Plans of mcslab: docs/PLANS.md.
if exists('b:current_syntax')
  finish
endif
syntax include @mcsScript syntax/mcs.vim
unlet! b:current_syntax
syntax case match
syntax iskeyword @,48-57,_,.,-,?

syntax keyword planDeclaration contained cores endpoint notification reply context thread cnode tie
syntax keyword planPart contained prio max on core stopped without context in passive with
syntax keyword planHas contained has
syntax keyword planAs contained as
syntax keyword planUser contained user program
syntax keyword planStatement contained let forever while repeat if else break continue stop and not
syntax keyword planStatement contained has bit got heard empty done refused
syntax keyword planDomain contained pd channel
syntax keyword planDomainPart contained prio on core passive pp any priority
syntax keyword planHandler contained init protected notified
syntax keyword planSent contained notify deferred ppcall reply

syntax match planName contained /\S\@1<!\a[0-9A-Za-z._/-]*\%(:\%([rwgp]\+\|-\)\=\)\=\%(=\%(0x\x\+\|\d\+\)\)\=\S\@!/
syntax match planRights contained /\S\@1<![rwgp]\@=r\=w\=g\=p\=\S\@!/
syntax match planNumber contained /\S\@1<!\%(0x\x\+\|\d\+\):\=\S\@!/
syntax match planValue contained /\S\@1<!\$[0-9A-Za-z._-]\+\S\@!/
syntax match planSign contained /\S\@1<!\%([{}]\|==\|!=\|>=\|<\|+=\|-=\|=\)\S\@!/
syntax match planMark contained /^\s*?/
syntax match planComment /\S\@1<!#.*$/
syntax cluster planOperand contains=planComment,planNumber,planValue,mcsNone,planName

syntax match planLine /^\s*\%(cores\|endpoint\|notification\|reply\|context\|thread\|cnode\|tie\)\s.*$/ contains=planDeclaration,planPart,@planOperand
syntax match planCapabilities /^\s*\a[0-9A-Za-z._-]*\s\+has\s.*$/ contains=planHas,planAs,@planOperand
syntax match planStep /^\s*\%(user\s\+\)\=\a[0-9A-Za-z._-]*\%(\s\+on\s\+core\s\+\d\+\)\=:\s.*$/ contains=planUser,planPart,mcsEntry,mcsKind,@planOperand
syntax match planCopy /^\s*\%(user\s\+\)\=\a[0-9A-Za-z._-]*\%(\s\+on\s\+core\s\+\d\+\)\=:\s\+\%(copy\|mint\)\s.*$/ contains=planUser,planPart,mcsEntry,@planOperand,planRights
syntax match planExpectation /^\s*?\s.*$/ contains=planMark,mcsAnswerWord,mcsAsked,mcsAskedState,@planOperand
syntax match planStatements /^\s*\%(\a[0-9A-Za-z._-]*:\s\+\)\=\%(program\|let\|forever\|while\|repeat\|if\|break\|continue\|stop\|[{}]\)\S\@!.*$/ contains=planUser,planStatement,planSign,@planOperand
syntax match planGiven /^\s*\%(send\|nbsend\|call\|recv\|nbrecv\|wait\|nbwait\|replyrecv\|nbsendrecv\|nbsendwait\|signal\|setprio\|suspend\|resume\|bindntfn\|unbindntfn\|bind\|unbind\|cancel\|copy\|mint\|move\|delete\|make\)\s.*$/ contains=mcsEntry,mcsKind,@planOperand
syntax match planChange /^\s*\a[0-9A-Za-z._-]*\s\+\%(=\|+=\|-=\)\s.*$/ contains=planSign,@planOperand
syntax match planDomainLine /^\s*\%(pd\|channel\)\s\+\%(has\S\@!\|on\S\@!\)\@!\S.*$/ contains=planDomain,planDomainPart,planHandler,planSent,planStatement,planSign,@planOperand
syntax match planHandlerLine /^\s*\%(init\|protected\|notified\)\S\@!.*$/ contains=planHandler,planSent,planStatement,planSign,@planOperand
syntax match planSentLine /^\s*\%(\a[0-9A-Za-z._-]*:\s\+\)\=\%(\%(notify\|deferred\|ppcall\)\S\@!\|reply\%(\s\+[$0-9]\|\s*$\)\@=\).*$/ contains=planSent,planStatement,planSign,@planOperand
syntax match planQuestion /^#! .*$/ contains=@mcsScript

highlight default link planComment Comment
highlight default link planMark PreProc
highlight default link planDeclaration Statement
highlight default link planHas Statement
highlight default link planUser Statement
highlight default link planStatement Statement
highlight default link planDomain Statement
highlight default link planDomainPart Keyword
highlight default link planHandler Statement
highlight default link planSent Function
highlight default link planSign Operator
highlight default link planValue Identifier
highlight default link planPart Keyword
highlight default link planAs Keyword
highlight default link planName Identifier
highlight default link planRights StorageClass
highlight default link planNumber Number

let b:current_syntax = 'mcs-plan'
