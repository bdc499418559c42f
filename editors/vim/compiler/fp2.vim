" `:make` explains why the program of the buffer is refused, by tools/explain, and goes to the place.
" Where editors/vim was copied elsewhere, g:fp2_explain is the path of tools/explain.
if exists("current_compiler")
  finish
endif
let current_compiler = "fp2"

let s:beside = fnamemodify(resolve(expand("<sfile>:p")), ":h:h:h:h") . "/tools/explain"
let s:explain = get(g:, "fp2_explain", executable(s:beside) ? s:beside : "tools/explain")
execute "CompilerSet makeprg=" . escape(shellescape(s:explain) . " %:S", ' \|"')
CompilerSet errorformat=%f:%l:%c:\ %trror:\ %m,%f:%l:%c:\ %tote:\ %m,%-G%.%#
