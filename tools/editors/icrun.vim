" Scenarios and schedules of icrun. Copy this file to ~/.vim/syntax/icrun.vim, and set the file type by hand or so:
"   autocmd BufRead,BufNewFile scenario,schedule,*.scenario,*.schedule setfiletype icrun
if exists("b:current_syntax")
  finish
endif
syntax match icrunComment "#.*$"
syntax match icrunNumber "\v(^|\s)\zs-?\d+\ze(\s|#|$)"
syntax match icrunOperator "\v(^|\s)\zs(\+|-|\*|\<\=|\>\=|\<|\>|\=|!\=)\ze(\s|#|$)"
syntax match icrunDeclaration "\v^\s*\zs(xcom|tcom|pcom|var|key|on)>"
syntax match icrunStatement "\v^\s*\zs(set|send|out|get|put|need)>"
syntax match icrunBlock "\v^\s*\zs(if|else|txn|end)>"
syntax match icrunEvent "\v^\s*\zs(input|deliver|packet|lose|force|checkpoint|resend|emit|crash|recover|halt)>"
syntax match icrunModifier "\v\s\zs(immediate|stop|old)>"
highlight default link icrunComment Comment
highlight default link icrunNumber Number
highlight default link icrunOperator Operator
highlight default link icrunDeclaration Type
highlight default link icrunStatement Statement
highlight default link icrunBlock Conditional
highlight default link icrunEvent Function
highlight default link icrunModifier Special
let b:current_syntax = "icrun"
