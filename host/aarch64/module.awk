# An LLVM module for x86-64 made one for aarch64: awk -f module.awk EMPTY MODULE, where EMPTY is what the same clang makes of
# an empty C file for aarch64. Data layout and triple are EMPTY's, the processor's name goes, and what is exported takes and
# gives large structs in aarch64's way of C. Everything else means the same on both; an exported form that was not tried
# there is refused, never guessed.

function refuse(what) { print "module.awk: line " FNR ": " what ": " $0 > "/dev/stderr"; exit 1 }

FNR == NR { if ($1 == "target") own[$2] = $0; next }

$1 == "target" { $0 = own[$2] }

$1 == "attributes" { sub(/ "target-cpu"="x86-64"/, "") }

$1 == "declare" && !/@llvm\./ { refuse("a call out of the library") }

/ call / && !/ call [^(]*@("|llvm\.)/ { refuse("a call of an exported function") }

# A struct of over two words is returned where its caller says: in x86-64's way the first parameter, handed back in the end;
# on aarch64 a register of its own, which is what sret means there, and nothing is handed back.
/^define / && !/^define internal / {
  in_memory = sub(/^define noundef ptr @/, "define void @")
  if (in_memory && !sub(/\(ptr noundef %a0/, "(ptr noundef sret(i8) align 8 %a0")) refuse("a struct returned in another way")
  if (!/^define (void|noundef i64|[{] i64, i64 [}]) @[a-z_0-9]*\(/) refuse("another type returned")
  # A struct of over two words is passed by a pointer to the caller's copy, with no word on it.
  gsub(/ byval\(\[[0-9]+ x i8\]\)/, "")
  rest = $0
  sub(/^[^(]*\((ptr noundef sret\(i8\) align 8 %a0(, )?)?/, "", rest)
  gsub(/(ptr noundef( align 8)?|i64 noundef) %a[0-9]+(, )?/, "", rest)
  if (rest !~ /^\) #[0-9]+ [{]$/) refuse("another type of parameter")
}

in_memory && $1 == "ret" && !sub(/ret ptr %a0$/, "ret void") { refuse("a struct returned in another way") }

/^}/ { in_memory = 0 }

{ print }
