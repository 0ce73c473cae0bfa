" Files of the notation above the statements of opprove: docs/FORMATS.md has them.
if exists("b:current_syntax")
  finish
endif

syntax match opnNumber "\<\d\+"
" Words mean something at the beginning of a line, and behind these: assume, claim, if, with, a comma, the mark of a case, a colon.
syntax match opnLine "^\s*\zs\(object\|map\|assume\|claim\|define\|equivalent\|let\|use\|order\|eliminate\|solve\|model\|language\)\>"
syntax match opnLine "\s\zs\(if\|with\)\>"
syntax match opnLine "\(\<with\s\+\|,\s*\)\@<=define\>"
syntax match opnSetting "^\s*\zs\(matrices\|operators\)\>.*$"
syntax match opnWord "\(^\s*\|\(^\s*\|\s\)\(assume\|claim\|if\|with\)\s\+\|[,:]\s*\|(\(x\|i\|v\)\+)\s*\)\@<=\(pinv\|inverse\|inner\|outer\|reflexive\|13\|14\|123\|124\|weighted\s\+pinv\|group\|drazin\|dual\s\+core\|core\|along\|bc\|bott\s\+duffin\|hermitian\|normal\|unitary\|partial\s\+isometry\|isometry\|ep\|idempotent\|projection\|commute\|orthogonal\|range\|kernel\)\ze\s\+[^=:]*\([,#]\|$\|\<if\>\|\<with\>\|([xvi]\+)\)"
syntax match opnInner "\(\<\(range\|kernel\)\s\+\S\+\s\+\)\@<=in\>"
syntax match opnInner "\(\<\(range\|kernel\|along\|bc\)\s.*\)\@<=\<by\>"
syntax match opnCase "(\(x\|i\|v\)\+)\ze\s"
syntax match opnOption "\(^\s*order\s\+\)\@<=\(degree\|weight\)\>"
syntax match opnOption "\(->\s*\k\+\s\+\)\@<=self\ze\s*\([,#]\|$\)"
syntax match opnPath "\(^\s*use\s\+\)\@<=[^#]*"
syntax match opnIdentity "\[\s*\k\+\s*\]"
syntax match opnSign "->\|[:=+'^†*-]"
syntax match opnComment "#.*$" contains=@Spell

highlight default link opnLine Statement
highlight default link opnSetting Comment
highlight default link opnWord Function
highlight default link opnInner Function
highlight default link opnCase Label
highlight default link opnOption Type
highlight default link opnPath String
highlight default link opnIdentity Constant
highlight default link opnNumber Number
highlight default link opnSign Operator
highlight default link opnComment Comment

let b:current_syntax = "opprovenotation"
