(* OCaml peer: functional, as its users write it. peer WORKLOAD *)
let text =
  let b = Buffer.create 65536 in
  (try while true do Buffer.add_channel b stdin 1 done with End_of_file -> ());
  Buffer.contents b
let at = ref 0
let len = String.length text
let rec blank () =
  if !at < len then
    match text.[!at] with
    | ' ' | '\n' | ',' | ')' -> incr at; blank ()
    | _ -> ()
let peek () = if !at < len then text.[!at] else '\000'
let number () =
  blank ();
  let neg = peek () = '-' in
  if neg then incr at;
  let n = ref 0 in
  while (match peek () with '0' .. '9' -> true | _ -> false) do
    n := !n * 10 + (Char.code (peek ()) - 48); incr at
  done;
  if neg then - !n else !n

let rec rev xs acc = match xs with [] -> acc | x :: t -> rev t (x :: acc)

let reverse () =
  let m = number () in
  let rec items acc =
    blank ();
    if peek () = 'C' then (at := !at + 5; let x = number () in items (x :: acc)) else acc in
  let l = ref (rev (items []) []) in
  for _ = 1 to m do l := rev !l [] done;
  let b = Buffer.create 65536 in
  List.iter (fun x -> Buffer.add_string b "Cons("; Buffer.add_string b (string_of_int x);
                      Buffer.add_string b ", ") !l;
  Buffer.add_string b "Nil";
  List.iter (fun _ -> Buffer.add_char b ')') !l;
  Buffer.add_char b '\n';
  print_string (Buffer.contents b)

type color = Red | Black
type rb = Leaf | Node of color * rb * int * rb
let balance c l k r = match c, l, k, r with
  | Black, Node (Red, Node (Red, a, x, b), y, c), z, d
  | Black, Node (Red, a, x, Node (Red, b, y, c)), z, d
  | Black, a, x, Node (Red, Node (Red, b, y, c), z, d)
  | Black, a, x, Node (Red, b, y, Node (Red, c, z, d)) ->
    Node (Red, Node (Black, a, x, b), y, Node (Black, c, z, d))
  | c, l, k, r -> Node (c, l, k, r)
let insert (k : int) t =
  let rec ins = function
    | Leaf -> Node (Red, Leaf, k, Leaf)
    | Node (c, l, x, r) as t ->
      if k < x then balance c (ins l) x r
      else if k > x then balance c l x (ins r)
      else t in
  match ins t with Node (_, l, x, r) -> Node (Black, l, x, r) | Leaf -> Leaf
let rec count = function Leaf -> 0 | Node (_, l, _, r) -> count l + 1 + count r
let rec least = function
  | Leaf -> "none" | Node (_, Leaf, k, _) -> string_of_int k | Node (_, l, _, _) -> least l
let rec most = function
  | Leaf -> "none" | Node (_, _, k, Leaf) -> string_of_int k | Node (_, _, _, r) -> most r
let redblack () =
  let seed = number () in
  let n = number () in
  let reps = number () in
  let t = ref Leaf in
  for _ = 1 to reps do
    t := Leaf;
    let x = ref seed in
    for _ = 1 to n do
      x := (!x * 1103515245 + 12345) land 0x7fffffff;
      t := insert !x !t
    done
  done;
  Printf.printf "keys %d\nnodes %d\nleast %s\ngreatest %s\n" n (count !t) (least !t) (most !t)

type tree = Tip | Bin of tree * int * tree
let rec parse () =
  blank ();
  if peek () = 'L' then (at := !at + 4; Tip)
  else begin
    at := !at + 4;
    let l = parse () in
    let x = number () in
    let r = parse () in
    Bin (l, x, r)
  end
let rec increment = function
  | Tip -> Tip
  | Bin (l, x, r) -> let l = increment l in Bin (l, x + 1, increment r)
let treemap () =
  let m = number () in
  let t = ref (parse ()) in
  for _ = 1 to m do t := increment !t done;
  let b = Buffer.create 65536 in
  let rec print = function
    | Tip -> Buffer.add_string b "Leaf"
    | Bin (l, x, r) ->
      Buffer.add_string b "Bin("; print l; Buffer.add_string b ", ";
      Buffer.add_string b (string_of_int x); Buffer.add_string b ", "; print r;
      Buffer.add_char b ')' in
  print !t;
  Buffer.add_char b '\n';
  print_string (Buffer.contents b)

let next x = (x * 1103515245 + 12345) land 0x7fffffff

let read_list () =
  let rec items acc =
    blank ();
    if peek () = 'C' then (at := !at + 5; let x = number () in items (x :: acc)) else acc in
  rev (items []) []
let print_list l =
  let b = Buffer.create 65536 in
  List.iter (fun x -> Buffer.add_string b "Cons("; Buffer.add_string b (string_of_int x);
                      Buffer.add_string b ", ") l;
  Buffer.add_string b "Nil";
  List.iter (fun _ -> Buffer.add_char b ')') l;
  Buffer.add_char b '\n';
  print_string (Buffer.contents b)

(* runs that descend, merged by twos *)
let rec pass (xs : int list) acc = match xs with
  | [] -> (match acc with [] -> [] | _ -> pass acc [])
  | x :: t -> first x t [x] acc
and first last xs a acc = match xs with
  | [] -> (match acc with [] -> a | _ -> weave a [] [] acc)
  | x :: t -> if x <= last then first x t (x :: a) acc else second x t a [x] acc
and second last xs a b acc = match xs with
  | x :: t when x <= last -> second x t a (x :: b) acc
  | _ -> weave a b xs acc
and weave a b xs acc = match a, b with
  | [], [] -> pass xs acc
  | x :: t, [] -> weave t [] xs (x :: acc)
  | [], y :: u -> weave [] u xs (y :: acc)
  | x :: t, y :: u -> if x <= y then weave t b xs (x :: acc) else weave a u xs (y :: acc)
let mergesort () =
  let m = number () in
  let l = ref (read_list ()) in
  for _ = 1 to m do l := pass (List.rev_map next !l) [] done;
  print_list !l

type node = Leaf2 | Node2 of node * int * node
type way = Top | Left of int * node * way | Right of node * int * way
let rec rise l x r = function
  | Top -> Node2 (l, x, r)
  | Left (y, s, Top) -> Node2 (l, x, Node2 (r, y, s))
  | Right (s, y, Top) -> Node2 (Node2 (s, y, l), x, r)
  | Left (y, s, Left (z, t, up)) -> rise l x (Node2 (r, y, Node2 (s, z, t))) up
  | Right (s, y, Right (t, z, up)) -> rise (Node2 (Node2 (t, z, s), y, l)) x r up
  | Left (y, s, Right (t, z, up)) -> rise (Node2 (t, z, l)) x (Node2 (r, y, s)) up
  | Right (s, y, Left (z, t, up)) -> rise (Node2 (s, y, l)) x (Node2 (r, z, t)) up
let rec look (k : int) t up = match t with
  | Node2 (l, x, r) ->
    if k < x then look k l (Left (x, r, up)) else if k > x then look k r (Right (l, x, up)) else rise l x r up
  | Leaf2 -> (match up with
      | Top -> Leaf2
      | Left (x, r, up) -> rise Leaf2 x r up
      | Right (l, x, up) -> rise l x Leaf2 up)
let splay () =
  let m = number () in
  let x = ref (number ()) in
  let rec parse () =
    blank ();
    if peek () = 'L' then (at := !at + 4; Leaf2)
    else begin
      at := !at + 5;
      let l = parse () in
      let x = number () in
      let r = parse () in
      Node2 (l, x, r)
    end in
  let t = ref (parse ()) in
  for _ = 1 to m do x := next !x; t := look (!x / 65536 mod 8192) !t Top done;
  let b = Buffer.create 65536 in
  let rec print = function
    | Leaf2 -> Buffer.add_string b "Leaf"
    | Node2 (l, x, r) ->
      Buffer.add_string b "Node("; print l; Buffer.add_string b ", "; Buffer.add_string b (string_of_int x);
      Buffer.add_string b ", "; print r; Buffer.add_char b ')' in
  print !t;
  Buffer.add_char b '\n';
  print_string (Buffer.contents b)

type heap = Empty | Heap of int * heap list
let join a b = match a, b with
  | Empty, h | h, Empty -> h
  | Heap (x, c), Heap (y, d) -> if x <= y then Heap (x, b :: c) else Heap (y, a :: d)
let rec all acc h = match acc with [] -> h | a :: t -> all t (join a h)
let rec pairs xs acc = match xs with
  | [] -> all acc Empty
  | [a] -> all acc a
  | a :: b :: t -> pairs t (join a b :: acc)
let pairing () =
  let m = number () in
  let rec items acc =
    blank ();
    if peek () = 'I' then (at := !at + 5; let x = number () in ignore (number ()); items (x :: acc)) else acc in
  let l = ref (rev (items []) []) in
  let rec drain h acc = match h with Empty -> acc | Heap (x, c) -> drain (pairs c []) (x :: acc) in
  for _ = 1 to m do
    l := drain (List.fold_left (fun h x -> join (Heap (next x, [])) h) Empty !l) []
  done;
  let b = Buffer.create 65536 in
  List.iter (fun x -> Buffer.add_string b "Item("; Buffer.add_string b (string_of_int x);
                      Buffer.add_string b ", 0, ") !l;
  Buffer.add_string b "End";
  List.iter (fun _ -> Buffer.add_char b ')') !l;
  Buffer.add_char b '\n';
  print_string (Buffer.contents b)

let three unit x = x + x / 10 + x mod 10 * unit + x mod unit * 10 + x / unit
let rec fields unit sum x acc =
  if unit = 0 then acc
  else begin
    let n = sum / unit and old = x / unit in
    let field = if n = 3 then 1 else if n = 4 then old else 0 in
    fields (unit / 10) (sum mod unit) (x mod unit) (acc * 10 + field)
  end
let rec walk unit first above xs acc = match xs with
  | [] -> rev acc []
  | x :: t ->
    let below = match t with [] -> first | y :: _ -> y in
    walk unit first x t (fields unit (three unit above + three unit x + three unit below) x 0 :: acc)
let rec last found = function [] -> found | x :: t -> last x t
let life () =
  let m = number () in
  let unit = number () in
  let l = ref (read_list ()) in
  for _ = 1 to m do
    match !l with [] -> () | x :: _ -> l := walk unit x (last 0 !l) !l []
  done;
  print_list !l

type code = Symbol of int | Fork of code * code
let huffman () =
  let m = number () in
  let seed = ref (number ()) in
  let rec parse () =
    blank ();
    if peek () = 'S' then (at := !at + 7; let x = number () in Symbol x)
    else begin
      at := !at + 5;
      let l = parse () in
      let r = parse () in
      Fork (l, r)
    end in
  let code = parse () in
  let l = ref (read_list ()) in
  let rec fill xs acc = match xs with
    | [] -> acc
    | _ :: t -> seed := next !seed; fill t (!seed / 65536 mod 2 :: acc) in
  let rec decode c bits acc spare inside = match c with
    | Symbol x -> decode code bits (x :: acc) spare false
    | Fork (l, r) -> (match bits with
        | [] -> rev (rev acc []) (if inside then 0 :: spare else spare)
        | b :: t -> decode (if b = 0 then l else r) t acc (if inside then 0 :: spare else spare) true) in
  for _ = 1 to m do l := decode code (fill !l []) [] [] false done;
  print_list !l

let () = match Sys.argv.(1) with
  | "reverse" -> reverse ()
  | "redblack" -> redblack ()
  | "treemap" -> treemap ()
  | "mergesort" -> mergesort ()
  | "splay" -> splay ()
  | "pairing" -> pairing ()
  | "life" -> life ()
  | _ -> huffman ()
