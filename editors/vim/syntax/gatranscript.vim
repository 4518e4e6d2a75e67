" Vim syntax file: transcripts of ga-bench.
" Made by scripts/for_editors.py from the program's words; change that, and not this file.
if exists("b:current_syntax")
  finish
endif

syntax sync fromstart
syntax include @gaSource syntax/gasource.vim
unlet b:current_syntax

syntax match gaReply "\v^.+$"
syntax match gaRefused "\v^refused .*$"
syntax match gaComment "\v^\\ .*$"
syntax match gaPrompt nextgroup=gaCommand,gaBadCommand "\v^\> "
syntax match gaBadCommand contained "\v\S.*$"
syntax match gaCommand contained nextgroup=gaArguments skipwhite "\v%(turn|run|breaks|where|nodes|map)\S@!"
syntax match gaCommand contained nextgroup=gaAtNode,gaArguments skipwhite "\v%(break|clear|pass|try|until|step|trace|watch|regs|mem|ports|node|code|depth|sides|expect)\S@!"
syntax match gaArguments contained contains=gaWord,gaValue,gaOutcome "\v\S.*$"
syntax match gaWord contained "\v\S+"
syntax match gaValue contained "\v\S@1<!%(x?[0-9][0-9A-Fa-f]{0,6}|[A-F][0-9A-F]{1,6})\S@!"
syntax match gaOutcome contained "\v\S@1<!\=\S@!"
syntax match gaAtNode contained nextgroup=gaArguments skipwhite "\v\S@1<![0-7]%(0[0-9]|1[0-7])\S@!"

syntax region gaSession matchgroup=gaHead start="\v%^profile [12]$" end="\v^go$" keepend
  \ contains=@gaSource,gaPlace,gaFile
syntax match gaPlace contained "\v%2l^place$"
syntax match gaPlace contained "\v%2l^route " nextgroup=gaPath
syntax match gaFile contained "\v%3l^source .+\n%(go$)@=" contains=gaFileWord
syntax match gaFileWord contained "\v^source " nextgroup=gaPath
syntax match gaPath contained "\v\S.*$"

highlight default link gaHead PreProc
highlight default link gaPath String
highlight default link gaPrompt Delimiter
highlight default link gaCommand Statement
highlight default link gaAtNode Type
highlight default link gaValue Number
highlight default link gaWord Identifier
highlight default link gaOutcome Operator
highlight default link gaReply String
highlight default link gaRefused WarningMsg
highlight default link gaBadCommand Error
highlight default link gaPlace PreProc
highlight default link gaFileWord PreProc

let b:current_syntax = "gatranscript"
