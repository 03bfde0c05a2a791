" Colours for what apd prints. Copy it to ~/.vim/syntax, and type :setf apd in a log.
if exists("b:current_syntax")
  finish
endif
syntax match apdVariable "\<_\d\+\>"
syntax match apdCall "^\d\+ \d\+ Call:"
syntax match apdExit "^\d\+ \d\+ Exit:"
syntax match apdRedo "^\d\+ \d\+ Redo:"
syntax match apdFail "^\d\+ \d\+ Fail:"
syntax match apdTyped "^> .*" contains=apdVariable
syntax match apdTyped "^\(?-\|wrong(\|missing(\|loop\.\|known\.\|trace(\|yes\|no\.\|unknown\.\|stop\.\|quit\.\).*"
syntax match apdAnswer "^answer \d\+:"
syntax match apdQuestion "^question \d\+: \a\+?"
syntax match apdReply "^reply: \S\+"
syntax match apdSymptom "^symptom: .*" contains=apdVariable
syntax match apdFinding "^\(bug\|no bug\|candidates\|candidate\|unanswered\):.*" contains=apdVariable
syntax match apdCount "\[\d\+ \(suspects\|left\)\]"
syntax match apdWhole "^\(passed over\|warning\|loaded\|oracle\|reference\|run\|end\|trace\|demo\|check\):"
syntax match apdRefusal "^E\d\+ .*"
syntax match apdRefusal "^\(program refused\|oracle refused\|reference refused\|usage\|check fails\):.*\|^\(read fault\|input limit\|file too long\).*"
highlight default link apdVariable Identifier
highlight default link apdCall Statement
highlight default link apdExit String
highlight default link apdRedo Type
highlight default link apdFail Special
highlight default link apdTyped Comment
highlight default link apdAnswer String
highlight default link apdQuestion Question
highlight default link apdReply Constant
highlight default link apdSymptom WarningMsg
highlight default link apdFinding Error
highlight default link apdCount Number
highlight default link apdWhole PreProc
highlight default link apdRefusal Todo
let b:current_syntax = "apd"
