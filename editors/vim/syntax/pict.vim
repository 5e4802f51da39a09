" Syntax of Pict, *.pi: the tokens of docs/LANGUAGE.md.
if exists('b:current_syntax') | finish | endif
syntax case match
syntax sync fromstart

" An identifier may have quotes in it, as x', so a quote after a letter opens no character, and run' is no keyword.
syntax iskeyword @,48-57,_,39
syntax match pictIdentifier "\<\a[A-Za-z0-9_']*"
syntax match pictNumber "-\?\d\+"
syntax match pictSign "?\*\|->\|[!?=|()\[\]:;<>\\^/#_]"
syntax match pictPrimitive "+\$\|==\|<<\|<=\|>>\|>=\|+\|\*\|-\ze\%([^0-9>]\|$\)"

syntax keyword pictKeyword and def import new rec run type val
syntax keyword pictConditional if then else
syntax keyword pictBoolean true false
syntax keyword pictType Bool Char Int String Top Type
syntax keyword pictPrimitive print printi pr div mod chr ord intstr size nth not

syntax match pictBad "\\." contained
syntax match pictEscape +\\\([nt\\"']\|x\x\x\)+ contained
syntax region pictString start=+"+ skip=+\\.+ end=+"+ oneline contains=pictBad,pictEscape
syntax match pictCharacter +'\(\\[nt\\"']\|\\x\x\x\|[ -&(-\[\]-~]\)'+ contains=pictEscape
syntax region pictComment start="{\*" end="\*}" contains=pictComment,@Spell

highlight default link pictKeyword Keyword
highlight default link pictConditional Conditional
highlight default link pictBoolean Boolean
highlight default link pictType Type
highlight default link pictPrimitive Function
highlight default link pictSign Operator
highlight default link pictNumber Number
highlight default link pictString String
highlight default link pictCharacter Character
highlight default link pictEscape SpecialChar
highlight default link pictBad Error
highlight default link pictComment Comment
let b:current_syntax = 'pict'
