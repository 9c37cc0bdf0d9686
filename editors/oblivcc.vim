" Vim syntax file for programs of oblivcc (.oc)
if exists("b:current_syntax")
  finish
endif

syntax keyword oblivccHidden obliv frozen
syntax keyword oblivccControl if else while for return break continue
syntax keyword oblivccType struct void bool _Bool char short int long signed unsigned
syntax keyword oblivccOperator sizeof
syntax keyword oblivccConstant true false NULL
syntax keyword oblivccCall feedOblivBool feedOblivChar feedOblivShort feedOblivInt feedOblivLLong
syntax keyword oblivccCall revealOblivBool revealOblivChar revealOblivShort revealOblivInt revealOblivLLong
syntax keyword oblivccCall ocPrivate ocPrivateCount ocPublic ocPublicCount ocResult printf malloc calloc free

syntax match oblivccNumber /\v<(0[xX]\x+|0\o*|[1-9]\d*)([uU](ll|LL|[lL])?|(ll|LL|[lL])[uU]?)?>/
syntax match oblivccEscape /\\[ntr0\\'"]/ contained
syntax match oblivccCharacter /'\([ -&(-[\]-~]\|\\[ntr0\\'"]\)'/ contains=oblivccEscape
syntax region oblivccText start=/"/ skip=/\\./ end=/"/ oneline contains=oblivccEscape
syntax match oblivccDirective /^\s*#\(include\s*<\(obliv\.oh\|stdio\.h\|stdlib\.h\|stdbool\.h\)>\|define\s\@=\)/
syntax match oblivccComment "//.*$"
syntax region oblivccComment start="/\*" end="\*/"

highlight default link oblivccHidden StorageClass
highlight default link oblivccControl Statement
highlight default link oblivccType Type
highlight default link oblivccOperator Operator
highlight default link oblivccConstant Constant
highlight default link oblivccCall Function
highlight default link oblivccNumber Number
highlight default link oblivccEscape SpecialChar
highlight default link oblivccCharacter Character
highlight default link oblivccText String
highlight default link oblivccDirective PreProc
highlight default link oblivccComment Comment

let b:current_syntax = "oblivcc"
