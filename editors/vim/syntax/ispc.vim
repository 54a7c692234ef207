" Colours for Intel ISPC sources, as isp compiles them. Written by tools/editor_words.py from the words of the lexer.
if exists('b:current_syntax')
  finish
endif

syntax keyword ispcConditional if cif else
syntax keyword ispcRepeat while cwhile do cdo for cfor foreach foreach_tiled foreach_active foreach_unique
syntax keyword ispcStatement break continue return unmasked print assert
syntax keyword ispcRate uniform varying
syntax keyword ispcQualifier const export static inline
syntax keyword ispcType void bool int int8 int16 int32 int64 uint uint8 uint16 uint32 uint64 signed unsigned
syntax keyword ispcBoolean true false
syntax keyword ispcGang programIndex programCount
syntax keyword ispcFunction reduce_add reduce_min reduce_max reduce_equal any all none exclusive_scan_add exclusive_scan_and exclusive_scan_or broadcast rotate shift shuffle extract insert packed_store_active packed_load_active min max clamp abs select
syntax keyword ispcLeftOut float double float16 struct enum typedef switch case default goto new delete task launch sync soa extern sizeof template typename operator NULL size_t ptrdiff_t intptr_t uintptr_t cbreak ccontinue creturn
syntax match ispcNumber /\<\%(0x\x\+\|0b[01]\+\|0\|[1-9]\d*\)\%([uU]\=[lL]\{,2}\|[lL]\{1,2}[uU]\)\>/
syntax match ispcEscape /\\[nrt\\\"]/ contained
syntax match ispcPlace /%/ contained
syntax region ispcString start=/"/ skip=/\\./ end=/"/ oneline contains=ispcEscape,ispcPlace
syntax match ispcComment #//.*$# contains=@Spell
syntax region ispcComment start=#/\*# end=#\*/# contains=@Spell

highlight default link ispcConditional Conditional
highlight default link ispcRepeat Repeat
highlight default link ispcStatement Statement
highlight default link ispcRate StorageClass
highlight default link ispcQualifier StorageClass
highlight default link ispcType Type
highlight default link ispcBoolean Boolean
highlight default link ispcGang Constant
highlight default link ispcFunction Function
highlight default link ispcLeftOut Error
highlight default link ispcNumber Number
highlight default link ispcEscape SpecialChar
highlight default link ispcPlace SpecialChar
highlight default link ispcString String
highlight default link ispcComment Comment

let b:current_syntax = 'ispc'
