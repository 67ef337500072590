" Schedules, headers, thread setups and omission files of roundc.
if exists('b:current_syntax')
  finish
endif

syntax case match

" A line's first word says what the line is.
syntax match roundscheduleHeader /^\%(nodes\|faults\|inputs\|rounds\|plan\|pace\)\>/
syntax match roundscheduleEvent /^\%(step\|release\|drop\|copy\|stop\)\>/
syntax match roundscheduleOmission /^\%(omit\|cut\|crash\)\>/
syntax match roundscheduleConstant /\%(^plan \)\@<=\%(known\|growing\)\>/
syntax match roundscheduleConstant /\%(^pace \)\@<=\%(free\|ticks\)\>/
syntax match roundscheduleNumber /\<\d\+\>/
syntax match roundscheduleDelimiter /[-,]/

" A comment is a line of its own.
syntax keyword roundscheduleTodo TODO FIXME XXX contained
syntax match roundscheduleComment /^#.*/ contains=roundscheduleTodo,@Spell

highlight default link roundscheduleHeader Statement
highlight default link roundscheduleEvent Function
highlight default link roundscheduleOmission Keyword
highlight default link roundscheduleConstant Constant
highlight default link roundscheduleNumber Number
highlight default link roundscheduleDelimiter Delimiter
highlight default link roundscheduleComment Comment
highlight default link roundscheduleTodo Todo

let b:current_syntax = 'roundschedule'
