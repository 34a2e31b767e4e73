" Colours of blueprints of streams, versions 1 and 2. A word is read by its place, as in the language: `map` is a kind only after the name of a
" stage. A line that begins no declaration is an error. Of two rules that match at one place vim takes the later one.
if exists("b:current_syntax") | finish | endif
syn case match

syn match blueFault    /\S.*$/
syn match blueComment  /^ *#.*$/
syn match blueVersion  /^ *streams \+[12]\ze *$/

syn match blueDeclare  /^ *\%(source\|stage\|sink\|use\|module\|switch\|chain\)\>/ nextgroup=blueName,blueFault skipwhite
syn match blueDeclare  /^ *wire\>/ nextgroup=bluePort skipwhite
syn match blueDeclare  /^ *\%(in\|out\)\>/ nextgroup=blueName,blueFault skipwhite
syn match blueDeclare  /^ *\%(default\|end\)\>/ nextgroup=blueRest skipwhite

syn match blueName     /[a-z][a-z0-9_]*/ contained nextgroup=blueKind,blueEqual,blueRest skipwhite
syn match bluePort     /[a-z][a-z0-9_]*\.[A-Za-z0-9_]\+/ contained contains=bluePoint nextgroup=blueArrow,blueRest skipwhite
syn match bluePoint    /\.[A-Za-z0-9_]\+/ contained

syn keyword blueKind contained nextgroup=blueRest skipwhite lines range empty failed head last ignore
syn keyword blueKind contained nextgroup=blueRest skipwhite map filter filter_not take_while drop_while take drop limit grouped map_concat
syn keyword blueKind contained nextgroup=blueRest skipwhite fold scan reduce buffer recover valve trip plug custom
syn keyword blueKind contained nextgroup=blueRest skipwhite group_by split_when split_after merge concat interleave merge_sorted zip
syn keyword blueKind contained nextgroup=blueRest skipwhite broadcast balance partition unzip merge_hub broadcast_hub

syn match blueRest     /\S.*$/ contained contains=blueWord,blueNumber,blueFunction,blueFixed,blueBar
syn match blueWord     /[!-~]\+/ contained
syn match blueNumber   /\%(^\|\s\)\@<=-\=\d\{1,20}\ze\%(\s\|$\)/ contained
syn match blueFunction /\%(^\|\s\)\@<=\%(num\|show\|add\|mul\|div\|rem\|div_into\|neg\|abs\|nonneg\|len\|field\|prefix\|suffix\|first\|second\|swap\|twin\|size\|sum\)\ze\%(\s\|$\)/ contained
syn match blueFunction /\%(^\|\s\)\@<=\%(even\|odd\|lt\|le\|gt\|ge\|eq\|multiple\|blank\|has\|starts\|is\|numeric\|field_is\)\ze\%(\s\|$\)/ contained
syn match blueFunction /\%(^\|\s\)\@<=\%(words\|flat\|twice\|sum_nonneg\|count\|collect\|max\|min\)\ze\%(\s\|$\)/ contained
syn match blueFixed    /\%(^\|\s\)\@<=\%(decider\|stop\|resume\|restart\|async\|keep\|each\|merge\|concat\|shutdown\|abort\|text\)\ze\%(\s\|$\)/ contained
syn match blueFixed    /\%(^\|\s\)\@<=\%(backpressure\|drop_head\|drop_tail\|drop_buffer\|drop_new\|fail\)\ze\%(\s\|$\)/ contained
syn match blueBar      /\%(^\|\s\)\@<=|\ze\s/ contained nextgroup=blueKind skipwhite
syn match blueArrow    /->/ contained nextgroup=bluePort skipwhite
syn match blueEqual    /=/ contained nextgroup=bluePort skipwhite

hi def link blueFault Error
hi def link blueComment Comment
hi def link blueVersion PreProc
hi def link blueDeclare Statement
hi def link blueName Identifier
hi def link bluePort Identifier
hi def link bluePoint Number
hi def link blueArrow Operator
hi def link blueEqual Operator
hi def link blueBar Operator
hi def link blueKind Type
hi def link blueFunction Function
hi def link blueFixed Keyword
hi def link blueNumber Number
hi def link blueWord String
let b:current_syntax = "blue"
