" antt: definitions and proofs.
if exists('b:current_syntax')
  finish
endif
syntax match anttComment "--.*$" contains=@Spell
syntax keyword anttDeclaration use pub mod abbrev unfoldable data record where infixl infixr infix
syntax keyword anttTerm let in if then else elim rw refl subst absurd
syntax keyword anttTactic search grind simp omega unfolding
syntax match anttName "^\s*\%(pub \|abbrev pub \|unfoldable pub \)\?\zs\k\+\ze\s*:"
syntax match anttNumber "\<\%(0x\x\+\|\d\+\)\>"
syntax region anttText start=/"/ skip=/\\"/ end=/"/
syntax match anttSign "[→≡≢∷λ×∙⊥⊤≤<]"
highlight default link anttComment Comment
highlight default link anttDeclaration Keyword
highlight default link anttTerm Statement
highlight default link anttTactic PreProc
highlight default link anttName Function
highlight default link anttNumber Number
highlight default link anttText String
highlight default link anttSign Operator
let b:current_syntax = 'antt'
