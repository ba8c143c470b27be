" Scripts and traces of mcssim: docs/FORMS.md, docs/CHECKING.md, docs/EXPLORING.md.
if exists('b:current_syntax')
  finish
endif
syntax case match
syntax iskeyword @,48-57,_,.,-,?

syntax keyword mcsBoot contained cores cnode endpoint notification reply context thread slot tie
syntax keyword mcsMode contained run stop
syntax keyword mcsUser contained user
syntax keyword mcsEntry contained send nbsend call recv nbrecv wait nbwait replyrecv nbsendrecv
syntax keyword mcsEntry contained nbsendwait signal setprio suspend resume bindntfn unbindntfn bind
syntax keyword mcsEntry contained unbind cancel copy mint move delete make
syntax keyword mcsKind contained endpoint notification reply context
syntax keyword mcsAnswerWord contained done got heard empty waits refused
syntax keyword mcsRecordWord contained made closed slot prio turns joins parts sent took dropped owes
syntax keyword mcsRecordWord contained paid void holds raised heard tied homed
syntax keyword mcsState contained running restart inactive send call mute give deleted cancelled
syntax keyword mcsAsked contained away waits owed by got heard answered bound holds priority held
syntax keyword mcsAsked contained chain homed owes with pending
syntax keyword mcsAskedState contained NotRunning NoContext WrongCore running restart inactive closed
syntax keyword mcsAskedState contained nothing
syntax keyword mcsQuestionWord contained idle live answer answer? some never before again and in
syntax keyword mcsQuestionWord contained schedule serial equal any resumed goes on

syntax keyword mcsStatement contained let forever while repeat if else break continue stop and not
syntax keyword mcsStatement contained has bit

" of two that match at one place Vim takes the last, so names come first
syntax match mcsName contained /\S\@1<!\a[0-9A-Za-z._-]*\S\@!/
syntax match mcsNumber contained /\S\@1<!\%(0\|[1-9]\d*\)\S\@!/
syntax match mcsObject contained /\S\@1<![ctenrs][1-9]\d*\S\@!/
syntax match mcsObject contained /\S\@1<!\%(e[1-9]\d*\.\%(send\|recv\)\|n[1-9]\d*\.wait\)\S\@!/
syntax match mcsMessage contained /\S\@1<!m\%(0\|[1-9]\d*\)\S\@!/
syntax match mcsRights contained /\S\@1<![rwgp]\@=r\=w\=g\=p\=\S\@!/
syntax match mcsNone contained /\S\@1<!-\S\@!/
syntax match mcsAny contained /\S\@1<!\*\*\=\S\@!/
syntax match mcsRange contained /\S\@1<!\d\+\.\.=\=\d\+\S\@!/
syntax match mcsSign contained /\S\@1<![=+]\S\@!/
syntax match mcsValue contained /\S\@1<!\$[0-9A-Za-z._-]\+\S\@!/
syntax match mcsProgramSign contained /\S\@1<!\%([{}]\|==\|!=\|>=\|<\|+=\|-=\|=\)\S\@!/
syntax match mcsProgramUser contained /\%(^#! \)\@<=\a[0-9A-Za-z._-]*:/
syntax match mcsProgramNote contained /\s\@1<=#.*$/
syntax match mcsMark contained /^#[@?!]/
syntax cluster mcsOperand contains=mcsNumber,mcsObject,mcsMessage,mcsRights,mcsNone

syntax match mcsComment /^#.*$/
syntax match mcsFault /^#[!@].*$/
syntax match mcsNameLine /^#@ [ctenrs][1-9]\d* \a[0-9A-Za-z._-]*$/ contains=mcsMark,mcsName,mcsObject
syntax match mcsExpectation /^#? .*$/ contains=mcsMark,mcsAsked,mcsAskedState,@mcsOperand
syntax match mcsQuestion /^#! .*$/ contains=mcsMark,mcsQuestionWord,mcsAnswerWord,mcsRecordWord,mcsState,mcsName,@mcsOperand,mcsAny,mcsRange,mcsSign
syntax match mcsProgram /^#! \a[0-9A-Za-z._-]*: .*$/ contains=mcsMark,mcsProgramUser,mcsStatement,mcsEntry,mcsKind,mcsAnswerWord,mcsName,@mcsOperand,mcsValue,mcsProgramSign,mcsProgramNote
syntax match mcsAnswer /^= .*$/ contains=mcsSign,mcsAnswerWord,mcsNumber
syntax match mcsRecord /^+ .*$/ contains=mcsSign,mcsRecordWord,mcsState,@mcsOperand
syntax match mcsBootLine /^\%(cores\|cnode\|endpoint\|notification\|reply\|context\|thread\|slot\|tie\)\S\@!.*$/ contains=mcsBoot,mcsMode,@mcsOperand
syntax match mcsStep /^\%(user\|\d\+\) t\d\+ .*$/ contains=mcsUser,mcsEntry,mcsKind,@mcsOperand

highlight default link mcsComment Comment
highlight default link mcsProgramNote Comment
highlight default link mcsStatement Statement
highlight default link mcsProgramUser Identifier
highlight default link mcsProgramSign Operator
highlight default link mcsValue Identifier
highlight default link mcsFault Error
highlight default link mcsMark PreProc
highlight default link mcsBoot Statement
highlight default link mcsUser Statement
highlight default link mcsEntry Function
highlight default link mcsKind Type
highlight default link mcsMode Constant
highlight default link mcsState Constant
highlight default link mcsAskedState Constant
highlight default link mcsNone Constant
highlight default link mcsAnswerWord Keyword
highlight default link mcsRecordWord Keyword
highlight default link mcsAsked Keyword
highlight default link mcsQuestionWord Keyword
highlight default link mcsSign Operator
highlight default link mcsAny Operator
highlight default link mcsNumber Number
highlight default link mcsRange Number
highlight default link mcsObject Identifier
highlight default link mcsMessage Identifier
highlight default link mcsName Identifier
highlight default link mcsRights StorageClass

let b:current_syntax = 'mcs'
