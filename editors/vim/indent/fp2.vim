" Indentation of FP2 programs: one step in each open bracket, and one after `->` and `=` at the end of a line.
if exists("b:did_indent")
  finish
endif
let b:did_indent = 1

setlocal indentexpr=GetFp2Indent(v:lnum)
setlocal indentkeys=0{,0},0),0],!^F,o,O,e
let b:undo_indent = "setlocal indentexpr< indentkeys<"

if exists("*GetFp2Indent")
  finish
endif

" The text of a line without its comment and the blanks at its end.
function s:Text(lnum)
  return substitute(getline(a:lnum), '\s*\(//.*\)\?$', '', '')
endfunction

" The line of the innermost bracket that is open where a line begins; 0 where none is.
function s:Opener(lnum)
  call cursor(a:lnum, 1)
  let skip = 'getline(".")[: col(".") - 1] =~ "//"'
  return searchpair('[[({]', '', '[])}]', 'bnW', skip, max([1, a:lnum - 500]))
endfunction

function GetFp2Indent(lnum)
  let opener = s:Opener(a:lnum)
  if getline(a:lnum) =~ '^\s*[])}]'
    return opener ? indent(opener) : 0
  endif
  " A chain of `else { if .. {`: each `else` under the one before.
  if opener && getline(a:lnum) =~ '^\s*else\>' && getline(opener) =~ '^\s*else\s*{\s*if\>'
    return indent(opener)
  endif
  let before = prevnonblank(a:lnum - 1)
  while before > 0 && s:Text(before) == ''
    let before = prevnonblank(before - 1)
  endwhile
  if before == 0
    return 0
  endif
  if s:Text(before) =~ '\(->\|=\)$'
    return indent(before) + shiftwidth()
  endif
  let base = opener ? indent(opener) + shiftwidth() : 0
  if before == opener || s:Text(before) =~ ';$' && s:Text(before) !~ '^\s*let\>'
    return base
  endif
  " Within a clause or a let: as the line before, once what it closes is looked through.
  let first = before
  while s:Opener(first) != opener && s:Opener(first) > 0
    let first = s:Opener(first)
  endwhile
  return max([base, indent(first)])
endfunction
