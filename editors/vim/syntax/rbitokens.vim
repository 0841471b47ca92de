" The tokens of programs and services. Of several matches at one place Vim takes the one that is defined last.
syntax case match

syntax match rbiBadByte /[^ \t\r]/
syntax match rbiName /[A-Za-z_][A-Za-z0-9_]*/
syntax match rbiNumber /[0-9]\+/

syntax match rbiPunctuation /[.,;:(){}[\]#]/
syntax match rbiOperator /[<>=+*\/%!-]/
syntax match rbiOperator /==\|!=\|<=\|>=\|&&\|||/

syntax match rbiControl /\v(if|else|for|in|while|try|catch|throw|return|batch)[A-Za-z0-9_]@!/
syntax match rbiDeclaration /\v(interface|class|fun|main|val|var|object|root)[A-Za-z0-9_]@!/
syntax match rbiModifier /\vremote[A-Za-z0-9_]@!/
syntax match rbiType /\v(List|Rows|Int|Bool|Text|Unit)[A-Za-z0-9_]@!/
syntax match rbiFunction /\v(print|len|str)[A-Za-z0-9_]@!/
syntax match rbiNew /\vnew[A-Za-z0-9_]@!/
syntax match rbiThis /\vthis[A-Za-z0-9_]@!/
syntax match rbiTruth /\v(true|false)[A-Za-z0-9_]@!/

syntax match rbiComment +//.*+ contains=@Spell
syntax match rbiOpenText +\v"([^"\\]|\\.)*\\?$+
syntax match rbiBadEscape /\\./ contained
syntax match rbiEscape /\\[n"\\]/ contained
syntax region rbiText start=+"+ skip=+\\.+ end=+"+ oneline contains=rbiEscape,rbiBadEscape,@Spell

highlight default link rbiBadByte Error
highlight default link rbiNumber Number
highlight default link rbiOperator Operator
highlight default link rbiPunctuation Delimiter
highlight default link rbiControl Statement
highlight default link rbiDeclaration Keyword
highlight default link rbiModifier StorageClass
highlight default link rbiType Type
highlight default link rbiFunction Function
highlight default link rbiNew Keyword
highlight default link rbiThis Identifier
highlight default link rbiTruth Boolean
highlight default link rbiComment Comment
highlight default link rbiOpenText Error
highlight default link rbiBadEscape Error
highlight default link rbiEscape SpecialChar
highlight default link rbiText String
highlight default link rbiNotHere Error
