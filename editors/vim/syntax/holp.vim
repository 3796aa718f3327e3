" Proof scripts of holp.
if exists('b:current_syntax')
  finish
endif
syntax case match
syntax iskeyword @,48-57,_,'
syntax match holpCommand /\%(^\|;;\s*\)\zs\%(thm\|show\|save\|var\|def\|newtype\|newconst\|goal\|e\|b\|p\|r\)\>/
syntax region holpTerm start=/`/ end=/`/ end=/;;/me=s-1
syntax sync match holpSync grouphere NONE /;;/
syntax match holpTactic /\<[A-Z0-9_]\+_TAC\>/
syntax keyword holpCombinator THEN THENL ORELSE REPEAT TRY HOST THENC ORELSEC REPEATC TRY_CONV RAND_CONV RATOR_CONV
syntax keyword holpCombinator ABS_CONV SUB_CONV DEPTH_CONV ONCE_DEPTH_CONV TOP_DEPTH_CONV ALL_CONV NO_CONV REWR_CONV
syntax match holpRule /=\s*\zs[A-Z][A-Z0-9_]*\>/
syntax keyword holpRule BETA_CONV
syntax match holpEnd /;;/
highlight default link holpCommand Keyword
highlight default link holpTerm String
highlight default link holpTactic Function
highlight default link holpCombinator Statement
highlight default link holpRule Function
highlight default link holpEnd Delimiter
let b:current_syntax = 'holp'
