# shellcheck shell=bash
# What examples/run and examples/try share. Each sample is a folder with the words of its call
# (`words`), its files, the commands (`commands`), the replies (`transcript`) and what the program
# has to write (`output`).

# The samples that are named, or all of them, in the order in which they are best read.
sample_names() {
  local name
  [ $# -gt 0 ] || set -- first recursion structs bug sum files both hand
  for name; do
    if [ ! -f "$name/words" ]; then
      echo "there is no sample $name" >&2
      return 1
    fi
  done
  echo "$@"
}

# The files of a sample that its call reads, but for INPUT.
sample_files() {
  local word
  for word in $(cat "$1/words"); do
    [ "$word" != in ] && [ -f "$1/$word" ] && echo "$word"
  done
}

# show_sample NAME GOT: the commands with their replies, from the replies in the file GOT, and
# whether these are the sample's.
show_sample() {
  local name=$1 command reply left
  echo
  echo "$name: ldb $(cat "$name/words")"
  while IFS= read -r command; do
    echo "  > $command"
    [ "$command" = quit ] && continue
    IFS= read -r reply <&3 || reply='(no reply)'
    echo "    $reply"
    case $reply in
      frames\ *) left=${reply#frames } ;;
      regs\ mips*) left=$(grep -c '^go both' "$name/words") ;;
      *) left=0 ;;
    esac
    while [ "$left" -gt 0 ] && IFS= read -r reply <&3; do
      echo "    $reply"
      left=$((left - 1))
    done
  done <"$name/commands" 3<"$2"
  if cmp -s "$2" "$name/transcript"; then
    echo "$name: as told"
  else
    echo "$name: OTHERWISE than told:"
    diff "$name/transcript" "$2"
    return 1
  fi
}

# run_sample NAME: the session of a sample with the program that was built, in a copy of its folder.
run_sample() {
  local name=$1 room status=0
  room=$(mktemp -d) || return 1
  cp "$name"/* "$room"
  # shellcheck disable=SC2046
  (cd "$room" && "$ldb" $(cat words) <commands >got) || echo "$name: status $?"
  show_sample "$name" "$room/got" || status=1
  if ! cmp -s "$room/out" "$name/output"; then
    echo "$name: another OUTPUT: $(head -c 200 "$room/out" 2>&1)"
    status=1
  fi
  rm -rf "$room"
  return $status
}

root=$(cd .. && pwd)
ldb=${LDB:-$root/crates/ldb/out/ldb}

# The crates below a crate, each behind those that it stands on, from crates.txt.
crates_below() {
  awk -v top="$1" '
    { sub(/#.*/, "") }
    /:/ { split($0, halves, ":"); split(halves[1], head, " "); below[head[1]] = halves[2] }
    function visit(crate, names, count, i) {
      if (crate in seen || !(crate in below)) return
      seen[crate] = 1
      count = split(below[crate], names, " ")
      for (i = 1; i <= count; i++) visit(names[i])
      print crate
    }
    END { visit(top) }' "$root/crates.txt"
}

# How much there is to prove in a crate, about: the bytes of its sources and proofs.
weight_of() {
  find "$root/crates/$1" -path '*/out' -prune -o \( -name '*.rt' -o -name '*.antt' \) -printf '%s\n' |
    awk '{ sum += $1 } END { print int(sum / 1000) + 1 }'
}

# As many lanes as there are processors, and 4 at most.
lanes_here() {
  local count
  count=$(nproc)
  echo $((count < 4 ? count : 4))
}

minutes() { printf '%d:%02d' $(($1 / 60)) $(($1 % 60)); }

# Proves and builds the libraries below ldb, LANES side by side, and then ldb. LDB=PROGRAM takes
# that program and builds nothing.
build_proved() {
  [ -z "${LDB:-}" ] || return 0
  local lanes=${LANES:-$(lanes_here)} logs=$root/out/examples begun=$SECONDS
  local -A weight=() built=() since=() crate_of=()
  local -a left=() waiting
  local crate below ready pid took total=0 finished=0 count=0 spent=0 proved=0
  mkdir -p "$logs"
  # What rt ci proved on this machine is taken from there.
  "$root/tools/take-kept" "$root" >"$logs/take-kept.log" 2>&1 || true
  for crate in $(crates_below ldb); do
    weight[$crate]=$(weight_of "$crate")
    total=$((total + weight[$crate]))
    left+=("$crate")
  done
  local all=${#left[@]}
  echo "ldb and the $((all - 1)) crates below it: proving what isn't proved yet (logs in out/examples)"
  while [ "${#left[@]}" -gt 0 ] || [ "${#crate_of[@]}" -gt 0 ]; do
    waiting=()
    for crate in "${left[@]}"; do
      ready=yes
      for below in $(awk -v crate="$crate" -F: '{ split($1, head, " ") } head[1] == crate { print $2 }' "$root/crates.txt"); do
        [ -z "${weight[$below]:-}" ] || [ -n "${built[$below]:-}" ] || ready=
      done
      if [ -n "$ready" ] && [ "${#crate_of[@]}" -lt "$lanes" ]; then
        build_crate "$crate" >"$logs/$crate.log" 2>&1 </dev/null &
        crate_of[$!]=$crate
        since[$crate]=$SECONDS
      else
        waiting+=("$crate")
      fi
    done
    left=("${waiting[@]}")
    wait -n -p pid
    local status=$?
    crate=${crate_of[$pid]}
    unset "crate_of[$pid]"
    if [ $status -ne 0 ]; then
      echo "$crate is not proved; the end of out/examples/$crate.log:"
      tail -5 "$logs/$crate.log"
      wait
      return 1
    fi
    built[$crate]=yes
    count=$((count + 1))
    finished=$((finished + weight[$crate]))
    took=$((SECONDS - since[$crate]))
    # What was proved earlier tells nothing of the time that is left.
    if [ $took -ge 3 ]; then
      proved=$((proved + weight[$crate]))
      spent=$((SECONDS - begun))
      printf '[%3d/%d] %-16s %4d s   %s gone, about %s left\n' $count "$all" "$crate" $took \
        "$(minutes $spent)" "$(minutes $((spent * (total - finished) / proved)))"
    fi
  done
}

# A library, or the program at the end, which `rt run` leaves in out/ and runs: for a call without a
# form it prints `words`. So a program that an earlier run left isn't taken for this one. `quick` is
# `rt`, which at the top of the chain would spend minutes before it proves anything.
build_crate() {
  if [ "$1" = ldb ]; then
    cd "$root/crates/ldb" && [ "$("$root/tools/quick" run -- words)" = words ]
  else
    cd "$root/crates/$1" && "$root/tools/quick" lib
  fi
}
