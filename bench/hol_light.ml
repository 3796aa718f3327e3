(* The peers of the benchmark's works. `hol_light.sh` builds them behind HOL Light's own sources. *)

let is_asked option = mem option (Array.to_list Sys.argv);;

(* With --same it reads each term of the script on standard input by its own parser, and prints what holp prints, to the byte.
   With --print it prints by its own printer. *)
let prints_same = is_asked "--same" and prints_own = is_asked "--print";;

(* The text that holp prints: free variables and binders with their types. *)
let text = Buffer.create 65536;;
let put = Buffer.add_string text;;
let write () = print_string (Buffer.contents text); flush stdout; Buffer.clear text;;

(* A constant or type that a log declares has a space behind its name here, so that HOL Light does not know it yet. *)
let put_name name =
  let last = String.length name - 1 in
  if name.[last] = ' ' then Buffer.add_substring text name 0 last else put name;;
let rec put_type on_left = function
    Tyapp ("fun",[a;b]) ->
      if on_left then put "("; put_type true a; put "->"; put_type false b; if on_left then put ")"
  | Tyapp (name,_) | Tyvar name -> put_name name;;
let put_typed before name ty after = put before; put_name name; put ":"; put_type false ty; put after;;

(* the types of the open binders, by name *)
let binders : (string,hol_type) Hashtbl.t = Hashtbl.create 16;;
let is_bound name ty = Hashtbl.length binders > 0 && (try Hashtbl.find binders name = ty with Not_found -> false);;

let infix name ty = match name with
    "=" -> if hd (snd (dest_type ty)) = bool_ty then 2," <=> " else 10," = "
  | "==>" -> 4," ==> "
  | "\\/" -> 6," \\/ "
  | "/\\" -> 8," /\\ "
  | _ -> 0,"";;

let rec put_term level tm = match tm with
    Var (name,ty) -> if is_bound name ty then put name else put_typed "(" name ty ")"
  | Const (name,ty) -> if tyvars ty = [] then put name else put_typed "[" name ty "]"
  | Comb (Comb (Const (name,ty),l),r) when fst (infix name ty) > 0 ->
      let own,sign = infix name ty in
      enclosed own level (fun () -> put_term (own + 1) l; put sign; put_term own r)
  | Comb (Const ("~",_),t) -> enclosed 14 level (fun () -> put "~"; put_term 14 t)
  | Comb (Const (("!" | "?") as binder,_),Abs (Var (name,ty),body)) -> put_binding binder name ty body level
  | Abs (Var (name,ty),body) -> put_binding "\\" name ty body level
  | Comb (f,x) -> enclosed 16 level (fun () -> put_term 16 f; put " "; put_term 20 x)
and enclosed own level print = if own < level then (put "("; print (); put ")") else print ()
and put_binding binder name ty body level =
  enclosed 0 level (fun () ->
    put_typed binder name ty ". "; Hashtbl.add binders name ty; put_term 0 body; Hashtbl.remove binders name);;

let put_sequent asms sign concl =
  (match asms with
     [] -> ()
   | first::rest -> put_term 0 first; do_list (fun tm -> put ", "; put_term 0 tm) rest; put " ");
  put sign; put_term 0 concl; put "\n";;

let say_thm name th =
  if prints_own then print_endline (string_of_thm th) else
  if prints_same then (put name; put ": "; put_sequent (hyp th) "|- " (concl th); write ());;
let say_goals () =
  if prints_own then (print_goalstack (!current_goalstack); Format.print_newline ()) else
  if prints_same then
   (let _,goals,_ = hd (!current_goalstack) in
    (match length goals with
       0 -> put "No subgoals\n"
     | 1 -> put "1 subgoal\n"
     | n -> put (string_of_int n); put " subgoals\n");
    do_list (fun (asms,concl) -> put_sequent (rev (map (fun (_,th) -> hd (hyp th)) asms)) "?- " concl) goals;
    write ());;
let step tac = ignore (e tac); say_goals ();;
let begin_goal tm = ignore (set_goal ([],tm)); say_goals ();;
let say_top name = say_thm name (top_thm ());;

let proposition s = mk_var (s,bool_ty);;
let numbered_name s n = s ^ string_of_int n;;
let numbered s n = proposition (numbered_name s n);;

(* full binary trees, with no node shared *)
let rec tree d leaf join = if d = 0 then leaf else let l = tree (d - 1) leaf join in join l (tree (d - 1) leaf join);;
let joined ty =
  let f = mk_var ("f",mk_fun_ty ty (mk_fun_ty ty ty)) in
  fun l r -> mk_comb (mk_comb (f,l),r);;

let negation_rules () =
  CONJ (TAUT `~ ~p <=> p`) (CONJ (TAUT `~(p /\ q) <=> ~p \/ ~q`) (TAUT `~(p \/ q) <=> ~p /\ ~q`));;

let alternating depth =
  let atoms = ref 0 in
  let rec go d is_and =
    if d = 0 then (let x = numbered "x" !atoms in atoms := !atoms + 1; x) else
    let l = go (d - 1) (not is_and) in
    (if is_and then mk_conj else mk_disj) (l,go (d - 1) (not is_and)) in
  go depth true;;

let negated kind size =
  if kind = "tree" then mk_neg (alternating size) else funpow size mk_neg (proposition "p");;

(* The quoted texts of the script on standard input, one after another. *)
let script = lazy
 (let all = Buffer.create 65536 in
  (try while true do Buffer.add_channel all stdin 1 done with End_of_file -> ());
  Buffer.contents all);;
let place = ref 0;;
let next_quoted () =
  let first = String.index_from (Lazy.force script) !place '`' + 1 in
  let last = String.index_from (Lazy.force script) first '`' in
  place := last + 1;
  String.sub (Lazy.force script) first (last - first);;
(* the name in `thm NAME = RULE ` before the first quoted text *)
let theorem_name () =
  let words = String.split_on_char ' ' (String.sub (Lazy.force script) 0 (String.index (Lazy.force script) '`')) in
  el (length words - 4) words;;
(* passes over the texts of rules, which are made before the clock starts *)
let skip count = if prints_same then for i = 1 to count do ignore (next_quoted ()) done;;

(* HOL Light takes two of `~` without a space for one symbol. *)
let spaced text = if String.contains text '~' then String.concat "~ " (String.split_on_char '~' text) else text;;

(* A term of the script: the next one, read when it is asked for, or one that is made before the clock starts. *)
let given make = if prints_same then (fun () -> parse_term (spaced (next_quoted ()))) else let tm = make () in (fun () -> tm);;
let given_variable name = if prints_same then parse_term (next_quoted ()) else name;;

(* The check of a proof log: what `holp check` reads and prints, with each theorem made by HOL Light's rule. docs/LOGS.md has
   the format. It refuses nothing as `large`, and claims list their hypotheses in HOL Light's order. *)
exception Refused of string;;
let refuse cause = raise (Refused cause);;
let unless cause holds = if not holds then refuse cause;;
let failing cause f x = try f x with Failure _ -> refuse cause;;

(* the items of one kind, by the numbers of their lines *)
type 'a numbered_items = {mutable items : 'a array; mutable count : int};;
let push store item =
  if store.count = Array.length store.items then
    store.items <- Array.append store.items (Array.make (max 256 store.count) item);
  store.items.(store.count) <- item;
  store.count <- store.count + 1;;
let at store n = if n < store.count then store.items.(n) else refuse "number";;
let log_types : hol_type numbered_items = {items = [||]; count = 0};;
let log_terms : term numbered_items = {items = [||]; count = 0};;
let log_thms : thm numbered_items = {items = [||]; count = 0};;

(* The fields of a line; each that is read ends before the last line feed of the log. *)
let log = ref "" and here = ref 0;;
let pass c = unless "shape" ((!log).[!here] = c); incr here;;
let stop () = pass '\n';;
let is_more () = (!log).[!here] = ' ';;
let word () =
  let first = !here in
  while '!' <= (!log).[!here] && (!log).[!here] <= '~' do incr here done;
  unless "shape" (!here > first);
  String.sub !log first (!here - first);;
let field () = pass ' '; word ();;
let number () =
  pass ' ';
  let first = !here and value = ref 0 in
  while '0' <= (!log).[!here] && (!log).[!here] <= '9' do
    value := 10 * !value + Char.code (!log).[!here] - 48; incr here
  done;
  let digits = !here - first in
  unless "shape" (0 < digits && digits <= 10 && !value <= 4294967295 && (digits = 1 || (!log).[first] <> '0'));
  !value;;
let rec numbers () = if is_more () then let n = number () in n::numbers () else [];;
let rec pairs () = if is_more () then let n = number () in let m = number () in (n,m)::pairs () else [];;
let one f = let i = number () in stop (); f i;;
let two f = let i = number () in let j = number () in stop (); f i j;;
let named f = let name = field () in stop (); f name;;
let named_one f = let name = field () in one (f name);;

let rec goes_on name i = i = String.length name || (match name.[i] with
  'A'..'Z' | 'a'..'z' | '0'..'9' | '_' | '\'' -> goes_on name (i + 1) | _ -> false);;
let is_capital name = (match name.[0] with 'A'..'Z' -> true | _ -> false) && goes_on name 1;;
let is_small name = (match name.[0] with 'a'..'z' -> true | _ -> false) && goes_on name 1;;
let is_identifier name = is_capital name || is_small name;;
let is_constant name = is_identifier name || mem name ["="; "@"; "/\\"; "\\/"; "==>"; "~"; "!"; "?"];;
let is_own_type name = is_small name && name <> "bool";;
let constant name = unless "name" (is_constant name); if name = "=" || name = "@" then name else name ^ " ";;
let new_name name = let c = constant name in unless "name" (not (can get_const_type c)); c;;

let eta = lazy (SPEC `t:A->B` ETA_AX);;
let select = lazy (UNDISCH (SPECL [`P:A->bool`; `x:A`] SELECT_AX));;
let beta tm = match tm with
    Comb (Abs (v,_) as f,x) when is_var x && not (vfree_in x f) ->
      if x = v then BETA tm else INST [x,v] (BETA (mk_comb (f,v)))
  | _ -> failwith "beta";;
let mk_comb_rule f x = try MK_COMB (f,x) with Failure "MK_COMB: types do not agree" -> refuse "type";;
let thm_line = function
    "REFL" -> one (fun t -> REFL (at log_terms t))
  | "TRANS" -> two (fun i j -> TRANS (at log_thms i) (at log_thms j))
  | "MK_COMB" -> two (fun i j -> mk_comb_rule (at log_thms i) (at log_thms j))
  | "ABS" -> two (fun v i -> let v = at log_terms v and th = at log_thms i in unless "type" (is_var v); ABS v th)
  | "BETA" -> one (fun t -> beta (at log_terms t))
  | "ASSUME" -> one (fun t -> failing "type" ASSUME (at log_terms t))
  | "EQ_MP" -> two (fun i j -> EQ_MP (at log_thms i) (at log_thms j))
  | "DEDUCT" -> two (fun i j -> DEDUCT_ANTISYM_RULE (at log_thms i) (at log_thms j))
  | "INST" ->
      let i = number () in let ps = pairs () in stop ();
      let th = at log_thms i and theta = map (fun (t,v) -> at log_terms t,at log_terms v) ps in
      failing "type" (INST theta) th
  | "INSTTYPE" ->
      let i = number () in let ps = pairs () in stop ();
      let th = at log_thms i and theta = map (fun (ty,v) -> at log_types ty,at log_types v) ps in
      unless "type" (forall (is_vartype o snd) theta); INST_TYPE theta th
  | "ETA" -> stop (); Lazy.force eta
  | "SELECT" -> stop (); Lazy.force select
  | "DEF" -> named_one (fun name t ->
      let tm = at log_terms t in new_basic_definition (mk_eq (mk_var (new_name name,type_of tm),tm)))
  | _ -> refuse "shape";;

let is_same tm tm' = Pervasives.compare tm tm' = 0 || aconv tm tm';;
let claim name i c hyps =
  let th = at log_thms i and c = at log_terms c and hyps = map (at log_terms) hyps in
  unless "name" (is_identifier name);
  unless "claim" (is_same (concl th) c && forall2 is_same (hyp th) (List.sort_uniq alphaorder hyps));
  name,th;;

(* the claims, the last first, and whether the last line was read *)
let claims = ref [] and is_ended = ref false;;
let type_line = function
    "v" -> named (fun name -> unless "name" (is_capital name); mk_vartype name)
  | "b" -> stop (); bool_ty
  | "f" -> two (fun i j -> let a = at log_types i in mk_fun_ty a (at log_types j))
  | "n" -> named (fun name -> unless "name" (is_own_type name); failing "type" mk_type (name ^ " ",[]))
  | _ -> refuse "shape";;
let term_line = function
    "v" -> named_one (fun name y -> let ty = at log_types y in unless "name" (is_identifier name); mk_var (name,ty))
  | "c" -> named_one (fun name y -> let ty = at log_types y in failing "const" mk_mconst (constant name,ty))
  | "a" -> two (fun i j -> let f = at log_terms i in failing "type" mk_comb (f,at log_terms j))
  | "l" -> two (fun i j -> let v = at log_terms i in failing "type" mk_abs (v,at log_terms j))
  | _ -> refuse "shape";;
let log_line is_second =
  match word () with
    "t" -> push log_terms (term_line (field ()))
  | "y" -> push log_types (type_line (field ()))
  | "k" -> push log_thms (thm_line (field ()))
  | "c" ->
      let name = field () in let i = number () in let c = number () in let hyps = numbers () in stop ();
      claims := claim name i c hyps::!claims
  | "ny" when is_second ->
      named (fun name -> unless "name" (is_own_type name); failing "name" new_type (name ^ " ",0))
  | "nc" when is_second -> named_one (fun name y ->
      let ty = at log_types y in let c = new_name name in unless "rule" (tyvars ty = []); new_constant (c,ty))
  | "end" -> one (fun n -> unless "end" (not !is_ended && n = length !claims); is_ended := true)
  | _ -> refuse "shape";;

(* The text of a term without the names of binders. *)
let levels : (string,hol_type * int) Hashtbl.t = Hashtbl.create 64;;
let rec put_nameless depth = function
    Comb (f,x) -> put "("; put_nameless depth f; put " "; put_nameless depth x; put ")"
  | Const (name,ty) -> put_typed "[" name ty "]"
  | Var (name,ty) ->
      (match (try assoc ty (Hashtbl.find_all levels name) with Failure _ -> -1) with
         -1 -> put_typed "(" name ty ")"
       | level -> put "#"; put (string_of_int (depth - 1 - level)))
  | Abs (Var (name,ty),body) ->
      put "(\\"; put_type false ty; put ". ";
      Hashtbl.add levels name (ty,depth); put_nameless (depth + 1) body; Hashtbl.remove levels name;
      put ")";;
let put_claim (name,th) =
  put name; put ": ";
  (match hyp th with
     [] -> ()
   | first::rest -> put_nameless 0 first; do_list (fun tm -> put ", "; put_nameless 0 tm) rest; put " ");
  put "|- "; put_nameless 0 (concl th); put "\n";
  Buffer.output_buffer stdout text; Buffer.clear text;;

let check name =
  let file = open_in_bin name in
  log := really_input_string file (in_channel_length file);
  let last = try String.rindex !log '\n' + 1 with Not_found -> 0 and line = ref 1 in
  try
    let header = String.sub !log 0 (min 10 (String.length !log)) in
    unless "header" (header = "holp-log 1" || header = "holp-log 2");
    unless "cut" (String.length !log > 10);
    unless "header" ((!log).[10] = '\n');
    here := 11;
    while incr line; !here < last do
      let is_over = !is_ended in
      (try log_line (header = "holp-log 2") with Failure _ -> refuse "rule");
      unless "end" (not is_over)
    done;
    unless "cut" (last = String.length !log);
    unless "end" !is_ended;
    do_list put_claim (rev !claims);
    print_string ("claims: " ^ string_of_int (length !claims) ^ "\n"); flush stdout
  with Refused cause -> print_string ("refused at line " ^ string_of_int !line ^ ": " ^ cause ^ "\n"); exit 3;;

(* A work makes its terms, and answers what is timed. *)
let work name sizes =
  let size n = int_of_string (el n sizes) in
  let times n f = for i = 1 to n do f i done in
  match name with
    "empty" -> (fun () -> ())
  | "check" -> (fun () -> check (hd sizes))
  | "goals" ->
      (fun () -> times (size 0) (fun i -> begin_goal `T`; step (ACCEPT_TAC TRUTH); say_top (numbered_name "t" (i - 1))))
  | "tautologies" ->
      (fun () -> times (size 0) (fun _ -> begin_goal `p /\ q ==> q /\ p`; step (CONV_TAC TAUT)))
  | "nothing" ->
      let rule = TAUT `~ ~p <=> p` and tm = given (fun () -> tree (size 0) (proposition "x") (joined bool_ty)) in
      skip 1;
      (fun () -> begin_goal (tm ()); times (size 1) (fun _ -> step (PURE_REWRITE_TAC [rule])))
  | "disch" ->
      let tm = given (fun () -> itlist (curry mk_imp) (map (numbered "p") (0--(size 0 - 1))) `T`) in
      (fun () -> begin_goal (tm ()); step (funpow (size 0 - 1) (fun tac -> tac THEN DISCH_TAC) DISCH_TAC))
  | "peel" ->
      let tm = given (fun () -> list_mk_forall (map (numbered "x") (0--(size 0 - 1)),`T`)) in
      (fun () -> begin_goal (tm ()); step (funpow (size 0 - 1) (fun tac -> tac THEN GEN_TAC) GEN_TAC))
  | "peels" ->
      let tm = given (fun () -> list_mk_forall (map (numbered "x") (0--(size 0 - 1)),`T`)) in
      (fun () -> begin_goal (tm ()); times (size 0) (fun _ -> step GEN_TAC))
  | "spec" ->
      let names = map (numbered "x") (1--size 0) in
      let tm = given (fun () -> list_mk_forall (names,list_mk_conj names)) in
      (fun () ->
        let first = ASSUME (tm ()) in
        say_thm "s0" first;
        ignore (rev_itlist (fun n th -> 
          let th' = SPEC (given_variable (numbered "z" n)) th in
          say_thm (numbered_name "s" n) th';
          th') (1--size 0) first))
  | "conjuncts" ->
      let tm = given (fun () -> list_mk_conj (map (fun n -> let p = numbered "p" n in mk_imp (p,p)) (0--(size 0 - 1)))) in
      (fun () ->
        begin_goal (tm ()); step (REPEAT CONJ_TAC THEN DISCH_TAC THEN FIRST_ASSUM ACCEPT_TAC); say_top "all")
  | "steps" ->
      let parts = size 0 / 2 + 1 in
      let tm = given (fun () -> list_mk_conj (replicate `T` parts)) in
      (fun () ->
        begin_goal (tm ());
        times (parts - 1) (fun _ -> step CONJ_TAC; step (ACCEPT_TAC TRUTH));
        step (ACCEPT_TAC TRUTH);
        say_top "all")
  | "taut" -> 
      let text = spaced (next_quoted ()) in
      let read () = parse_term text in
      let tm = if prints_same then read else let tm = read () in (fun () -> tm) in
      (fun () -> say_thm (theorem_name ()) (TAUT (tm ())))
  | "hypotheses" ->
      let numbers = 1--size 0 in
      let through letter f = rev_itlist (fun n th -> let th' = f n th in say_thm (numbered_name letter n) th'; th') in
      (fun () ->
        let assumed = map (fun n -> let th = ASSUME (given_variable (numbered "x" n)) in say_thm (numbered_name "a" n) th; th) numbers in
        let joined = through "c" (fun n th -> CONJ th (el (n - 1) assumed)) (tl numbers) (hd assumed) in
        let discharged = through "d" (fun n -> DISCH (given_variable (numbered "x" n))) numbers joined in
        ignore (through "u" (fun _ th -> UNDISCH th) numbers discharged))
  | "printing" ->
      let tm = given (fun () -> tree (size 1) (mk_var ("x",aty)) (joined aty)) in
      let x n = given_variable (mk_var ((if n = 0 then "x" else "x" ^ string_of_int n),aty)) in
      (fun () ->
        let th = REFL (tm ()) in
        say_thm "a0" th;
        if el 0 sizes = "INST"
        then ignore (rev_itlist (fun n th -> let now = x n in let th' = INST [now,x (n - 1)] th in say_thm (numbered_name "a" n) th'; th') (1--10) th)
        else times 10 (fun n -> say_thm (numbered_name "b" n) (INST_TYPE [bool_ty,aty] th)))
  | "rewriting" ->
      let rules = negation_rules () and tm = given (fun () -> negated (el 1 sizes) (size 2)) in
      skip 3;
      if el 0 sizes = "conv"
      then (fun () -> say_thm "pushed" (TOP_DEPTH_CONV (GEN_REWRITE_CONV I [rules]) (tm ())))
      else (fun () -> begin_goal (tm ()); step (PURE_REWRITE_TAC [rules]))
  | "runaway" ->
      let either = SPEC (proposition "p") EXCLUDED_MIDDLE and some = EXISTS (`?y. y = (x:A)`,`x:A`) (REFL `x:A`) in
      let tac = match hd sizes with
          "assume" -> ASSUME_TAC TRUTH
        | "cases" -> DISJ_CASES_TAC either
        | "mp" -> MP_TAC TRUTH THEN DISCH_TAC
        | _ -> CHOOSE_THEN ASSUME_TAC some in
      (fun () -> begin_goal `q:bool`; step (REPEAT tac))
  | _ -> failwith ("no work " ^ name);;

let main =
  let arguments = filter (fun s -> s <> "--print" && s <> "--same") (tl (Array.to_list Sys.argv)) in
  let run = work (hd arguments) (tl arguments) in
  let start = Sys.time () in
  run ();
  prerr_endline (string_of_float (Sys.time () -. start));;
