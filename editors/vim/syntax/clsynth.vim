" Vim syntax file for repositories and queries of clsynth.
if exists('b:current_syntax')
  finish
endif

syntax match clsynthUnfit "^\s*\S.*$"
syntax match clsynthComment "^\s*#.*$" contains=@Spell

" Types, which go on to the end of the line.
syntax match clsynthType ".*$" contained contains=@clsynthTypeParts
syntax cluster clsynthTypeParts contains=clsynthConstructor,clsynthOmega,clsynthVariable,clsynthOperator,clsynthParenthesis
syntax match clsynthConstructor "\<\h\w*" contained
syntax match clsynthOmega "\<omega\>" contained
syntax match clsynthVariable "\$\s*\h\w*" contained
syntax match clsynthOperator "->\|&\|\*\|<=\||" contained
syntax match clsynthParenthesis "[()]" contained
syntax match clsynthNumber "\<\d\+\>" contained
syntax match clsynthNumbers ".*$" contained contains=clsynthNumber
syntax match clsynthComma "," contained

" Declarations.
syntax match clsynthDeclaration "^\s*comp\>" nextgroup=clsynthComponent skipwhite
syntax match clsynthComponent "\<\h\w*" contained nextgroup=clsynthColon skipwhite
syntax match clsynthColon ":" contained nextgroup=clsynthType
syntax match clsynthDeclaration "^\s*kind\>" nextgroup=clsynthKind skipwhite
syntax match clsynthKind "\<\h\w*" contained nextgroup=clsynthKindEquals skipwhite
syntax match clsynthKindEquals "=" contained nextgroup=clsynthType
syntax match clsynthDeclaration "^\s*text\>" nextgroup=clsynthTextName skipwhite
syntax match clsynthTextName "\<\h\w*" contained nextgroup=clsynthTextEquals skipwhite
syntax match clsynthTextEquals "=" contained nextgroup=clsynthTemplate
syntax match clsynthTemplate ".*$" contained contains=clsynthBadBrace,clsynthHole,clsynthEscape
syntax match clsynthBadBrace "[{}\\]" contained
syntax match clsynthHole "{0*\%([1-9]\|1[0-6]\)}" contained
syntax match clsynthEscape "{{\|}}\|\\n\|\\\\" contained
syntax match clsynthDeclaration "^\s*cost\>" nextgroup=clsynthCostName skipwhite
syntax match clsynthCostName "\<\h\w*" contained nextgroup=clsynthNumber skipwhite
syntax match clsynthDeclaration "^\s*variance\>" nextgroup=clsynthVarianceName skipwhite
syntax match clsynthVarianceName "\<\h\w*" contained nextgroup=clsynthVariance skipwhite
syntax match clsynthVariance "\<\%(contra\|inv\)\>" contained
syntax match clsynthDeclaration "^\s*sub\>" nextgroup=clsynthType
syntax match clsynthDeclaration "^\s*filter\>" nextgroup=clsynthFilter skipwhite
syntax match clsynthFilter "\<\h\w*" contained nextgroup=clsynthAccepts skipwhite
syntax match clsynthAccepts "\<accepts\>" contained nextgroup=clsynthStates
syntax match clsynthDeclaration "^\s*leaf\>" nextgroup=clsynthLeafFilter skipwhite
syntax match clsynthLeafFilter "\<\h\w*" contained nextgroup=clsynthLeafName skipwhite
syntax match clsynthLeafName "\<\h\w*" contained nextgroup=clsynthStates
syntax match clsynthDeclaration "^\s*\%(app\|other\)\>" nextgroup=clsynthOwnFilter skipwhite
syntax match clsynthOwnFilter "\<\h\w*" contained nextgroup=clsynthStates
syntax match clsynthStates ".*$" contained contains=clsynthArrow,clsynthState,clsynthSetAside
syntax match clsynthArrow "->" contained
syntax match clsynthState "\<\h\w*" contained
syntax match clsynthSetAside "\<\%(none\|_\)\>" contained
syntax match clsynthEnd "^\s*end\s*$"

" Queries.
syntax match clsynthQuery "^\s*\%(inhabit\|batch\|grammar\|audit\|certify\|verify\|finite\)\>" nextgroup=clsynthType
syntax match clsynthQuery "^\s*\%(paths\|drop\)\>" nextgroup=clsynthTerm
syntax match clsynthQuery "^\s*\%(list\|texts\)\>" nextgroup=clsynthListing
syntax match clsynthQuery "^\s*filtered\>" nextgroup=clsynthAskedFilter skipwhite
syntax match clsynthAskedFilter "\<\h\w*" contained nextgroup=clsynthListing
syntax match clsynthListing ".*$" contained contains=@clsynthTypeParts,clsynthPage,clsynthAfter
syntax match clsynthPage "\<max\s\+\d\+\s\+take\s\+\d\+" contained contains=clsynthPageWord,clsynthNumber
syntax match clsynthPageWord "\<\%(max\|take\)\>" contained
syntax match clsynthAfter "\%(\d\s\+\)\@<=after\>" contained nextgroup=clsynthTerm
syntax match clsynthTerm ".*$" contained contains=clsynthName,clsynthParenthesis,clsynthComma
syntax match clsynthName "\<\h\w*" contained
syntax match clsynthQuery "^\s*add\>" nextgroup=clsynthComponent skipwhite
syntax match clsynthQuery "^\s*typed\>" nextgroup=clsynthTyped
syntax match clsynthTyped "[^:]*" contained contains=clsynthName,clsynthParenthesis,clsynthComma nextgroup=clsynthColon

" Certificates.
syntax match clsynthCertificate "^\s*\%(inhabited\|empty\|layer\|qed\)\s*$"
syntax match clsynthCertificate "^\s*member\>" nextgroup=clsynthType
syntax match clsynthCertificate "^\s*block\>" nextgroup=clsynthCostName skipwhite
syntax match clsynthCertificate "^\s*set\>" nextgroup=clsynthNumbers
syntax match clsynthCertificate "^\s*row\>" nextgroup=clsynthRow
syntax match clsynthRow ".*$" contained contains=@clsynthTypeParts,clsynthBy
syntax match clsynthBy "\<by\s\+\h\w*\s\+\d\+\s*:.*$" contained contains=clsynthByWord,clsynthByName,clsynthNumber
syntax match clsynthByName "\<\h\w*" contained
syntax match clsynthByWord "\<by\>" contained nextgroup=clsynthByName skipwhite

highlight default link clsynthUnfit Error
highlight default link clsynthComment Comment
highlight default link clsynthConstructor Type
highlight default link clsynthOmega Constant
highlight default link clsynthVariable Identifier
highlight default link clsynthKind Identifier
highlight default link clsynthOperator Operator
highlight default link clsynthNumber Number
highlight default link clsynthDeclaration Statement
highlight default link clsynthVariance StorageClass
highlight default link clsynthVarianceName Type
highlight default link clsynthEnd Statement
highlight default link clsynthComponent Function
highlight default link clsynthTextName Function
highlight default link clsynthCostName Function
highlight default link clsynthName Function
highlight default link clsynthLeafName Function
highlight default link clsynthFilter Identifier
highlight default link clsynthLeafFilter Identifier
highlight default link clsynthOwnFilter Identifier
highlight default link clsynthAskedFilter Identifier
highlight default link clsynthAccepts Statement
highlight default link clsynthState Label
highlight default link clsynthSetAside Constant
highlight default link clsynthArrow Operator
highlight default link clsynthByName Function
highlight default link clsynthTemplate String
highlight default link clsynthHole Special
highlight default link clsynthEscape SpecialChar
highlight default link clsynthBadBrace Error
highlight default link clsynthQuery Keyword
highlight default link clsynthPageWord Keyword
highlight default link clsynthAfter Keyword
highlight default link clsynthCertificate PreProc
highlight default link clsynthByWord PreProc

let b:current_syntax = 'clsynth'
