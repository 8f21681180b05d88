#!/bin/sh
# What is read for each point of the design pass: run at the top of the repository.
p1() { grep -rnE '^ *(pub )?enum |-> u8$|-> u8 |\b(number|status|key|asc|ascq|code|condition|control|prevent|page|wanted): u8|^ *(pub )?const [A-Z_]+: (u8|u32) = ' --include=*.rt crates/*/src; }
p2() { grep -rhoE '^ *(pub )?fn [a-z_0-9]+' --include=*.rt crates/*/src | sed 's/.*fn //' | sort | uniq -d; }
p3() { grep -rnE '^ *(for [a-z_]+ in [^ ]*\.\.|for \([a-z]+, |while |loop )|let \[([a-z], )+[a-z]\]' --include=*.rt crates/*/src; }
p4() { grep -rnE 'fn (from_[a-z0-9_]+|to_[a-z]+|code|codes|number|check_number|answer_number|report|defaults|print_[a-z_]+|eq|cmp|clone|fmt|flag|from|try_from|default)\b' --include=*.rt crates/*/src; }
p5() { grep -rhoE 'requires( [a-z_]+)? \{.*\}' --include=*.rt crates/*/src | sort | uniq -c | sort -rn; }
p6() { grep -rnE '\[[A-Za-z<>]+; [0-9A-Z_]+\]|Vec<|VecDeque<|\.zip\(|\[[^]]*\.\.[^]]*\]' --include=*.rt crates/*/src | grep -v '\[u8; 512\]\|\[..\]'; }
p7() { grep -rnE '\bfn\(|\bFn(Mut|Once)?\(|\bdyn |match (step|self|command|order|call)\b' --include=*.rt crates/*/src; }
p8() { find crates/*/proofs -name '*.antt' | xargs cat | grep -cv '^ *$'; }
for n in ${1:-1 2 3 4 5 6 7 8}; do echo "== $n"; p$n; done
