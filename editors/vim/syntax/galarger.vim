" Vim syntax file: larger source text of ga-bench.
" Made by scripts/for_editors.py from the program's words; change that, and not this file.
if exists("b:current_syntax")
  finish
endif

" Of two that begin at one place, Vim takes the later one.
syntax match gaBadNode contained "\v\S+"
syntax match gaError "\v\S@1<!\S+\S@!"
syntax match gaNumber "\v\S@1<!%(-?[(])*-?%([0-9]{1,8}|\$[0-9A-Fa-f]{1,8}|\%[01]{1,18}|'[!-~]'|[A-Za-z_][A-Za-z0-9_]{0,15})%([)]*%([<]{2}|[>]{2}|[-+*/|]|\%|\&)%(-?[(])*-?%([0-9]{1,8}|\$[0-9A-Fa-f]{1,8}|\%[01]{1,18}|'[!-~]'|[A-Za-z_][A-Za-z0-9_]{0,15}))*[)]*\S@!"
syntax match gaName "\v\S@1<![A-Za-z_][A-Za-z0-9_]{0,15}\S@!"
syntax match gaNumber "\v\S@1<!%([0-9]{1,8}|\$[0-9A-Fa-f]{1,8})\S@!"
syntax match gaMark "\v\S@1<!%(\[|\]|\,|\/)\S@!"
syntax match gaName "\v\S@1<!\&[A-Za-z_][A-Za-z0-9_]{0,15}\S@!"
syntax match gaNumber "\v\S@1<!%(-[0-9]{1,8}|\%[01]{1,18}|'[!-~]')\S@!"
syntax match gaNumberName "\v\S@1<!%(right|down|left|up)%(\|%(right|down|left|up))+\S@!"
syntax match gaNumberName "\v\S@1<!%(north|east|south|west)\S@!"
syntax match gaKeyword "\v\S@1<!%(const|body|end|use|to)\S@!"
syntax match gaInclude "\v\S@1<!include[ \t]+\"[^\"]+\"\S@!"
syntax match gaKeyword "\v\S@1<!%(align|data)\S@!"
syntax match gaNode nextgroup=gaNodeName,gaBadNode,gaComment skipwhite skipempty "\v\S@1<!node\S@!"
syntax match gaNumberName "\v\S@1<!%(right|down|left|up|rdlu|io|warm)\S@!"
syntax match gaOpcode "\v\S@1<!%(\;|ex|unext|\@p|\@\+|\@b|\@|\!p|\!\+|\!b|\!|\+\*|2\*|2\/|\-|\+|and|or|drop|dup|pop|over|a|\.|push|b\!|a\!)\S@!"
syntax match gaJump "\v\S@1<!%(jump|call|next|if|\-if)\S@!"
syntax match gaLabel "\v\S@1<![A-Za-z_][A-Za-z0-9_]{0,15}:\S@!"
syntax match gaError "\v\S@1<!%(\;|ex|unext|\@p|\@\+|\@b|\@|\!p|\!\+|\!b|\!|\+\*|2\*|2\/|\-|\+|and|or|drop|dup|pop|over|a|\.|push|b\!|a\!|jump|call|next|if|\-if|right|down|left|up|rdlu|io|warm|node|align|data):\S@!"
syntax match gaComment "\v\S@1<!\\\S@!.*"
syntax match gaNodeName contained "\v\S@1<![0-7]%(0[0-9]|1[0-7])%(,[0-7]%(0[0-9]|1[0-7]))*\S@!"

highlight default link gaComment Comment
highlight default link gaError Error
highlight default link gaLabel Label
highlight default link gaJump Conditional
highlight default link gaOpcode Statement
highlight default link gaNumberName Constant
highlight default link gaNode PreProc
highlight default link gaKeyword PreProc
highlight default link gaInclude Include
highlight default link gaNumber Number
highlight default link gaName Identifier
highlight default link gaMark Delimiter
highlight default link gaNodeName Type
highlight default link gaBadNode Error

let b:current_syntax = "galarger"
