#!/usr/bin/env bash
# What does a program do where memory is refused? Runs each built program over small inputs with its k-th growth refused,
# and with all growths from the k-th on, for each k until one is past the last growth. Each run must be the whole run, or
# end with "no memory" (status 8) behind a front of the whole run's output; any other end is told, and then the script
# fails. A library that is loaded before the C library's counts the calls of malloc, calloc and realloc.
set -eu
cd "$(dirname "$0")/.."
folder=$(mktemp -d)
trap 'rm -rf "$folder"' EXIT
cat >"$folder/refuse.c" <<'C'
#define _GNU_SOURCE
#include <dlfcn.h>
#include <errno.h>
#include <fcntl.h>
#include <stdlib.h>
#include <string.h>
#include <unistd.h>
static long at, grown;
static int all;
static void *(*next_malloc)(size_t), *(*next_calloc)(size_t, size_t), *(*next_realloc)(void *, size_t);
static int (*next_memalign)(void **, size_t, size_t);
static void *(*next_aligned)(size_t, size_t);
static void (*next_free)(void *);
static _Alignas(16) char first[4096];
static size_t used;
static int beginning;
/* Before main, while there is one thread: the real calls, and which growths are refused. */
__attribute__((constructor)) static void begin(void) {
  if (next_malloc || beginning) return;
  beginning = 1;
  next_calloc = dlsym(RTLD_NEXT, "calloc");
  next_realloc = dlsym(RTLD_NEXT, "realloc");
  next_memalign = dlsym(RTLD_NEXT, "posix_memalign");
  next_aligned = dlsym(RTLD_NEXT, "aligned_alloc");
  next_free = dlsym(RTLD_NEXT, "free");
  const char *word = getenv("REFUSE");
  all = word && *word == '+';
  at = word ? atol(word + all) : 0;
  next_malloc = dlsym(RTLD_NEXT, "malloc");
  if (!next_malloc || !next_calloc || !next_realloc || !next_memalign || !next_aligned || !next_free) _exit(99);
}
static int refused(void) {
  long n = __atomic_add_fetch(&grown, 1, __ATOMIC_SEQ_CST);
  if (at <= 0 || (all ? n < at : n != at)) return 0;
  errno = ENOMEM;
  return 1;
}
/* What dlsym itself asks for, before the real calls are known: zeroed, never given back, and not counted. */
static void *early(size_t n) {
  if (n > sizeof first - 16 - used) return 0;
  void *p = first + used;
  used += (n + 15) & ~(size_t)15;
  return p;
}
static int is_early(void *p) { return (char *)p >= first && (char *)p < first + sizeof first; }
static int knows(void) { begin(); return next_malloc != 0; }
void *malloc(size_t n) { return !knows() ? early(n) : refused() ? 0 : next_malloc(n); }
void *calloc(size_t n, size_t m) { return !knows() ? (m && n > (size_t)-1 / m ? 0 : early(n * m)) : refused() ? 0 : next_calloc(n, m); }
void *realloc(void *p, size_t n) {
  if (!knows()) return p ? 0 : early(n);
  if (refused()) return 0;
  if (!is_early(p)) return next_realloc(p, n);
  size_t had = first + sizeof first - (char *)p;
  void *q = next_malloc(n);
  return q ? memcpy(q, p, n < had ? n : had) : 0;
}
void free(void *p) { if (!is_early(p) && knows()) next_free(p); }
int posix_memalign(void **p, size_t a, size_t n) { return !knows() || refused() ? ENOMEM : next_memalign(p, a, n); }
void *aligned_alloc(size_t a, size_t n) { return !knows() || refused() ? 0 : next_aligned(a, n); }
__attribute__((destructor)) static void tell(void) {
  const char *path = getenv("GROWN");
  if (!path) return;
  char text[24];
  int i = 24;
  long n = grown;
  do text[--i] = '0' + n % 10; while (n /= 10);
  int f = open(path, O_WRONLY | O_CREAT | O_TRUNC, 0600);
  if (f >= 0) { if (write(f, text + i, 24 - i) < 0) {} close(f); }
}
C
cc -O2 -Wall -Werror -shared -fPIC -o "$folder/refuse.so" "$folder/refuse.c" -ldl
failed=0
says() { echo "$*"; failed=1; }
# tries STATUS PROGRAM INPUT [WORDS..]: the whole run first, which ends with this status, then with each growth refused.
tries() {
  local wanted=$1 program=$2 input=$3 built=crates/$2/out/$2 growths status kind k most front ends=0 same=0
  shift 3
  rm -f "$folder/grown"
  status=0
  GROWN=$folder/grown LD_PRELOAD=$folder/refuse.so "$built" "$@" <"$input" >"$folder/whole" || status=$?
  growths=$(cat "$folder/grown") || growths=0
  if [ "$status" -ne "$wanted" ] || [ "$growths" -eq 0 ]; then
    says "$program $* <$input: status $status, $growths growths"
    return
  fi
  # What may stand before the text: less than the whole output, and nothing where the input is refused.
  case $wanted in 0 | 9 | 11 | 14) most=$(($(stat -c %s "$folder/whole") - 1)) ;; *) most=0 ;; esac
  for k in $(seq 1 $((growths + 1))); do
    for kind in '' +; do
      status=0
      REFUSE=$kind$k LD_PRELOAD=$folder/refuse.so "$built" "$@" <"$input" >"$folder/out" 2>"$folder/errors" || status=$?
      if [ "$status" -eq "$wanted" ] && cmp -s "$folder/out" "$folder/whole"; then same=$((same + 1)); continue; fi
      front=$(($(stat -c %s "$folder/out") - 10))
      if [ "$k" -le "$growths" ] && [ "$status" -eq 8 ] && [ "$front" -ge 0 ] && [ "$front" -le "$most" ] &&
        cmp -s <(tail -c 10 "$folder/out") <(echo 'no memory') && cmp -s -n "$front" "$folder/out" "$folder/whole"; then
        ends=$((ends + 1))
      else
        says "$program $* <$input, growth $kind$k of $growths refused: status $status, $(head -c 200 "$folder/out" "$folder/errors" | tr '\n' ' ')"
      fi
    done
  done
  echo "$program $* <$(basename "$input"): $growths growths; $((2 * growths + 2)) runs: $ends ended with no memory, $same were whole"
}
for program in sherman_replay sherman_judge sherman_picture sherman_bulk; do
  ./run "$program" <"crates/$program/stdin" >/dev/null
done
small='--servers 1 --chunks 4 --chunk-nodes 8 --leaf 4 --computes 1 --seats 3 --cached 0'
printf '1,10\n5,50\n5,51\n' >"$folder/still.csv"
seq -f '%.0f,1' 1000 >"$folder/many.csv"
tries 0 sherman_replay examples/first.csv
# shellcheck disable=SC2086
tries 0 sherman_replay examples/range_beside_updates.csv $small --rows 2 --map
tries 0 sherman_replay crates/sherman_replay/stdin
tries 6 sherman_replay examples/refused_row.csv
tries 0 sherman_judge crates/sherman_judge/stdin
tries 0 sherman_judge examples/printed.txt
tries 14 sherman_judge examples/rows.csv
tries 0 sherman_picture examples/five_keys.picture --map
tries 11 sherman_picture examples/astray_child.picture
tries 0 sherman_bulk examples/rows.csv
tries 0 sherman_bulk examples/rows.csv --picture
tries 12 sherman_bulk "$folder/still.csv"
tries 13 sherman_bulk "$folder/many.csv" --servers 1 --chunks 1 --chunk-nodes 8
exit "$failed"
