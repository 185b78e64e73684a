(* The five programs of bench/machine in OCaml. Usage: works WORK ROUNDS; prints a number of the answer. *)
let rec dup l = match l with [] -> [] | h :: t -> let r = dup t in h :: h :: r

let rec insert (x : int) l =
  match l with [] -> [x] | y :: t -> if x <= y then x :: l else y :: insert x t

let rec sort l = match l with [] -> [] | x :: t -> insert x (sort t)

let rec loop n = if n = 0 then 0 else loop (n - 1)

let rec down n = if n = 0 then 0 else 1 + down (n - 1)

type tree = Leaf | Node of tree * int * tree

let rec put (x : int) t =
  match t with
  | Leaf -> Node (Leaf, x, Leaf)
  | Node (l, v, r) -> if x <= v then Node (put x l, v, r) else Node (l, v, put x r)

let rec build l t = match l with [] -> t | h :: rest -> build rest (put h t)

let rec flat t acc = match t with Leaf -> acc | Node (l, v, r) -> flat l (v :: flat r acc)

let list count item =
  let rec go i l = if i = 0 then l else go (i - 1) (item i :: l) in
  go count []

let random =
  let x = ref 12345 in
  Array.init 10000 (fun _ ->
      x := (!x * 1103515245 + 12345) land 0xffffffff;
      (if !x >= 0x80000000 then !x - 0x100000000 else !x) asr 2)

let () =
  let work = Sys.argv.(1) in
  let answer = ref 0 in
  for _ = 1 to int_of_string Sys.argv.(2) do
    match work with
    | "dup" ->
        for i = 1 to 4096 do
          answer := List.length (dup (list (37 * i mod 1000) (fun i -> i)))
        done
    | "isort" -> answer := List.hd (sort (list 1000 (fun i -> 1001 - i)))
    | "loop" -> answer := loop 100000000
    | "down" ->
        for _ = 1 to 100 do answer := down 65536 done
    | _ ->
              answer := List.hd (flat (build (list 10000 (fun i -> random.(i - 1))) Leaf) [])
  done;
  Printf.printf "%d\n" !answer
