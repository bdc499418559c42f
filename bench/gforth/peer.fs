\ Forth peer: fixed store, in place, as the C one. PEER=WORKLOAD gforth-fast peer.fs
8388608 constant max-text
create text max-text allot
create outs max-text allot
variable #text  variable at  variable #outs
: slurp  text max-text stdin read-file throw #text !  0 text #text @ + c! ;
: c@at ( -- c ) text at @ + c@ ;
: skip ( n -- ) at +! ;
: blank? ( c -- f ) dup bl = over 10 = or over [char] , = or swap [char] ) = or ;
: blanks  begin c@at blank? while 1 skip repeat ;
: digit? ( c -- f ) [char] 0 - 10 u< ;
: number ( -- n )
  blanks c@at [char] - = dup if 1 skip then
  0 begin c@at dup digit? while [char] 0 - swap 10 * + 1 skip repeat drop
  swap if negate then ;
: put ( addr n -- ) tuck outs #outs @ + swap move #outs +! ;
: putn ( n -- ) dup abs 0 <# #s rot sign #> put ;
: put-line  s\" \n" put ;
: flush-outs  outs #outs @ type ;

\ reverse: a cell is item, next; 0 is Nil
create cells1 1048576 2* cells allot
variable n1
: cell1 ( i -- addr ) 2* cells cells1 + ;
: reverse ( l -- l' )
  0 swap begin dup while
    dup cell+ dup @ >r rot swap ! r>
  repeat drop ;
: run-reverse
  number 0 n1 !
  begin blanks c@at [char] C = while 5 skip number n1 @ cell1 ! 1 n1 +! repeat
  n1 @ 2/ 0 ?do
    i cell1 @ n1 @ 1- i - cell1 @ i cell1 ! n1 @ 1- i - cell1 !
  loop
  0 n1 @ 0 ?do i cell1 tuck cell+ ! loop
  swap 0 ?do reverse loop
  begin dup while s" Cons(" put dup @ putn s" , " put cell+ @ repeat drop
  s" Nil" put n1 @ 0 ?do s" )" put loop put-line ;

\ redblack: a node is key, left, right, red; 0 is Leaf
create nodes 131072 4 * cells allot
variable used  variable root
create path 64 cells allot  \ addresses of the words that lead down
: key@ ( n -- k ) @ ;
: kid ( n d -- addr ) 1+ cells + ;
: red ( n -- addr ) 3 cells + ;
: red? ( n -- f ) dup if red @ then ;
variable depth#
: path@ ( i -- n ) cells path + @ @ ;
: push-path ( addr -- ) path depth# @ cells + ! 1 depth# +! ;
: new-node ( k -- n )
  used @ dup 4 cells + used ! dup >r ! 0 r@ cell+ ! 0 r@ 2 cells + ! true r@ red ! r> ;
: side ( child parent -- d ) 1 kid @ = 1 and ;
: rotate ( slot d -- ) \ the kid on side d of the slot's node comes up
  over @ { slot d g }
  g d kid @ { p }
  p 1 d - kid @ g d kid !
  g p 1 d - kid !
  p slot ! ;
: fix ( d -- ) \ path[d] leads to a red node
  begin
    dup 2 < if drop exit then
    dup 1- path@ red? 0= if drop exit then
    dup { d }
    d 2 - path@ { g }  d 1- path@ { p }
    p g side { e }
    g 1 e - kid @ { u }
    u red? if
      false p red ! false u red ! true g red !
      2 -
    else
      d path@ p side e <> if g e kid 1 e - rotate then
      d 2 - cells path + @ dup e rotate
      @ false over red ! drop
      true g red !
      drop exit
    then
  again ;
: insert { k -- }
  0 depth# ! root push-path
  begin path depth# @ 1- cells + @ @ dup while
    dup key@ k = if drop exit then
    dup key@ k < 1 and kid push-path
  repeat drop
  k new-node path depth# @ 1- cells + @ !
  depth# @ 1- fix
  false root @ red ! ;
: tally ( n -- count ) dup if dup 0 kid @ recurse swap 1 kid @ recurse + 1+ then ;
: edge ( d -- ) root @ dup 0= if 2drop s" none" put exit then
  begin 2dup swap kid @ dup while nip repeat drop key@ putn drop ;
: run-redblack
  number number number { seed n reps }
  0 root !
  reps 0 ?do
    nodes used ! 0 root !
    seed n 0 ?do 1103515245 * 12345 + 2147483647 and dup insert loop drop
  loop
  s" keys " put n putn put-line s" nodes " put root @ tally putn put-line
  s" least " put 0 edge put-line s" greatest " put 1 edge put-line ;

\ trees: a cell is left, item, right; 0 is Leaf
create cells3 262144 3 * cells allot
variable used3
2variable head  \ the text of a cell up to its bracket
: rest ( t -- addr ) 2 cells + ;
: parse-tree ( -- t )
  blanks c@at [char] L = if 4 skip 0 exit then
  head 2@ nip skip recurse number recurse
  used3 @ dup 3 cells + used3 ! >r
  r@ rest ! r@ cell+ ! r@ ! r> ;
: show ( t -- )
  dup 0= if drop s" Leaf" put exit then
  head 2@ put dup @ recurse s" , " put dup cell+ @ putn s" , " put rest @ recurse s" )" put ;

: increment ( t -- )
  begin dup while dup @ recurse dup cell+ 1 swap +! rest @ repeat drop ;
: run-treemap
  cells3 used3 !  s" Bin(" head 2!
  number parse-tree swap 0 ?do dup increment loop show put-line ;

: drawn ( x -- y ) 1103515245 * 12345 + 2147483647 and ;

\ splay
create spine 262144 cells allot
variable deep
: spine@ ( i -- t ) cells spine + @ ;
: descend ( t k -- )
  0 deep !
  begin over while
    over deep @ cells spine + !  1 deep +!
    over cell+ @ 2dup = if drop 2drop exit then
    over > if swap @ else swap rest @ then swap
  repeat 2drop ;
: splay ( t k -- t' )
  descend deep @ dup 0= if exit then
  dup 1- spine@ { d x }
  begin d 2 > while
    d 2 - spine@ d 3 - spine@ { p g }
    g @ p = if
      p @ x = if p rest @ g !  g p rest !  x rest @ p !  p x rest !
      else x @ p rest !  p x !  x rest @ g !  g x rest ! then
    else
      p rest @ x = if p @ g rest !  g p !  x @ p rest !  p x !
      else x rest @ p !  p x rest !  x @ g rest !  g x ! then
    then
    d 2 - to d
    d 1 > if x d 2 - spine@ dup @ g <> if rest then ! then
  repeat
  d 2 = if
    0 spine@ { p }
    p @ x = if x rest @ p !  p x rest ! else x @ p rest !  p x ! then
  then x ;
: run-splay
  cells3 used3 !  s" Node(" head 2!
  number number parse-tree rot 0 ?do swap drawn tuck 65536 / 8192 mod splay loop show put-line drop ;

\ lists of cells1 in their order
: read-list ( -- l )
  0 n1 !
  begin blanks c@at [char] C = while 5 skip number n1 @ cell1 ! 1 n1 +! repeat
  n1 @ 0 ?do i 1+ n1 @ < if i 1+ cell1 else 0 then i cell1 cell+ ! loop
  n1 @ if cells1 else 0 then ;
: show-list ( l -- )
  begin dup while s" Cons(" put dup @ putn s" , " put cell+ @ repeat drop
  s" Nil" put n1 @ 0 ?do s" )" put loop put-line ;

\ mergesort, from the bottom: runs of one item, then of two, four ..
variable merged
variable tail  \ the address of the word that ends the merged list
: onto-tail ( l -- l' ) dup tail @ !  cell+ dup tail !  @ ;
: merge-runs ( l width -- l' )
  { p width }
  p 0 begin over 0<> over width < and while 1+ swap cell+ @ swap repeat
  width { q left right }
  begin left 0<> right 0<> q 0<> and or while
    left if right 0= q 0= or if true else p @ q @ <= then else false then
    if p onto-tail to p  left 1- to left else q onto-tail to q  right 1- to right then
  repeat q ;
: merge-all ( l width -- l' merges )
  0 { p width merges }
  merged tail !  0 merged !
  begin p while p width merge-runs to p  merges 1+ to merges repeat
  0 tail @ !  merged @ merges ;
: sort ( l -- l' )
  1 { width }
  begin width merge-all 1 > while width 2* to width repeat ;
: mix ( l -- ) begin dup while dup @ drawn over ! cell+ @ repeat drop ;
: run-mergesort
  number read-list swap 0 ?do dup mix sort loop show-list ;

\ pairing: a cell is item, first child, next; 0 is none
create cells6 131072 3 * cells allot
: cell6 ( i -- addr ) 3 * cells cells6 + ;
: child ( h -- addr ) cell+ ;
: join ( a b -- h )
  over 0= if nip exit then
  dup 0= if drop exit then
  over @ over @ > if swap then
  over child @ over rest !  over child ! ;
: pop ( h -- h' )
  child @ 0 0 { c pairs all }
  begin c while
    c dup rest @ { a b }
    b if b rest @ else 0 then to c
    0 a rest !  b if 0 b rest ! then
    a b join pairs over rest ! to pairs
  repeat
  begin pairs while
    pairs rest @ { more }
    0 pairs rest !  pairs all join to all  more to pairs
  repeat all ;
: push-all ( l -- h )
  0 { l h }
  begin l while
    l rest @ { more }
    l @ drawn l !  0 l child !  0 l rest !
    l h join to h  more to l
  repeat h ;
: pop-all ( h -- l )
  0 { h l }
  begin h while h pop { more } l h rest !  h to l  more to h repeat l ;
: run-pairing
  number 0 n1 !
  begin blanks c@at [char] I = while 5 skip number n1 @ cell6 ! number drop 1 n1 +! repeat
  n1 @ 0 ?do i 1+ n1 @ < if i 1+ cell6 else 0 then i cell6 rest ! loop
  n1 @ if cells6 else 0 then
  swap 0 ?do push-all pop-all loop
  begin dup while s" Item(" put dup @ putn s" , 0, " put rest @ repeat drop
  s" End" put n1 @ 0 ?do s" )" put loop put-line ;

\ life
create grid 4096 cells allot
variable rows7  variable unit
: row ( i -- addr ) cells grid + ;
: three ( x -- y ) { x } x 10 /mod swap unit @ * +  x unit @ /mod swap 10 * +  + x + ;
: next-row ( above x below -- y )
  over >r three swap three + swap three +  r> 0 unit @ { sum old y u }
  begin u while
    sum u /mod swap to sum
    old u /mod swap to old
    over 3 = if 2drop 1 else swap 4 = and then
    y 10 * + to y
    u 10 / to u
  repeat y ;
: turn
  0 row @  rows7 @ 1- row @ { first above }
  rows7 @ 0 ?do
    i row @ { x }
    above x  i 1+ rows7 @ < if i 1+ row @ else first then next-row i row !
    x to above
  loop ;
: run-life
  number number unit !  0 rows7 !
  begin blanks c@at [char] C = while 5 skip number rows7 @ row ! 1 rows7 +! repeat
  rows7 @ if 0 ?do turn loop else drop then
  rows7 @ 0 ?do s" Cons(" put i row @ putn s" , " put loop
  s" Nil" put rows7 @ 0 ?do s" )" put loop put-line ;

\ huffman: a code is symbol, and what 0 and 1 lead to, which for a symbol is 0
create codes 1024 3 * cells allot
variable used8  variable seed
: parse-code ( -- c )
  blanks used8 @ dup 3 cells + used8 ! { c }
  c@at [char] S = if 7 skip number c !  0 c cell+ !  0 c rest !  c exit then
  5 skip recurse c cell+ !  recurse c rest !  c ;
: draw-bits ( l -- l' )
  0 { l done }
  begin l while
    l cell+ @ { more }
    seed @ drawn dup seed !  65536 / 1 and l !
    done l cell+ !  l to done  more to l
  repeat done ;
: decode ( code l -- l' )
  0 0 0 { root l done spare first }
  root { c }
  begin l while
    l cell+ @ { more }
    c l @ if rest else cell+ then @ to c
    first if 0 l !  spare l cell+ !  l to spare else l to first then
    c cell+ @ 0= if c @ first !  done first cell+ !  first to done  0 to first  root to c then
    more to l
  repeat
  first if 0 first !  spare first cell+ !  first to spare then
  done 0= if spare exit then
  done begin dup cell+ @ dup while nip repeat drop
  spare swap cell+ !  done ;
: run-huffman
  codes used8 !
  number number seed ! parse-code read-list rot 0 ?do draw-bits over swap decode loop show-list drop ;

: go
  slurp 0 at ! 0 #outs !
  s" run-" pad place s" PEER" getenv pad +place pad count evaluate
  flush-outs bye ;
go
