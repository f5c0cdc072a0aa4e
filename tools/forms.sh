#!/bin/sh
# Lists the places in src/ that are written as an older Rattle needed it, by kind; with -c only their counts.
# usage: sh tools/forms.sh [-c] [FOLDER]     FOLDER: a checkout, this one if none is given
# What it finds are candidates by the form of their text; docs/DESIGN-PASS.md says which are kept, and why.
count=no
if [ "$1" = -c ]; then count=yes; shift; fi
cd "${1:-$(dirname "$0")/..}" || exit 2
files=$(find crates -name out -prune -o -name '*.rt' -print | sort)

kind() { # kind NAME PATTERN: lines of src/ that fit
    if [ $count = yes ]; then
        printf '%4d  %s\n' "$(cat $files | grep -cE -e "$2")" "$1"
    else
        echo "== $1"; grep -nE -e "$2" $files
    fi
}

echo "1 results, options, enums"
kind '1a a buffer is filled, and a flag says whether' 'into: &mut \[.*-> (Result<)?bool'
kind '1b an error that is matched only to be handed on' 'Err\((Down|_|e)\) => (return )?Err\('
kind '1c a number that stands for none, for a kind or for a host' 'NEVER|host: u32,|fn (seat|turn|new|sky_seat)\(.*i: u32|^ +(pub )?(me|lose|ask): u(32|64),$'
kind '1d a number or a flag for whether something was done' 'fn (hear_one|look)<.*Result<u32|fn (push|next|round|end)\(.*-> .*bool|-> u8'
kind '1e a reason for a refusal as an Option' '-> Option<Refused>'
echo "2 twins"
kind '2a one arm for host 0 and the same for host 1' 'Who::Zero => self\.(zero|one)\.|let fall = self\.(zero|one)'
kind '2b functions of a trait beside one of their own that they call' 'self\.(ask|sky)_[a-z]+\('
kind '2c slots and pages, flags and pages: the same at another size' '^fn (file|store|read|load|fill|flag)\('
kind '2d one body, two names' 'fn (refused|received)\(attempt|fn (anew|afresh)\('
kind '2e arrays of main, for each host and program' 'let mut (pages|touched|row|kept)[01] ='
kind '2f a trait beside a trait' 'pub trait (AnySky|Sky)'
echo "3 loops with an index by hand"
kind '3a a while that counts' 'while .*(<|>)'
kind '3b a for over the indices of something' 'for [ip] in 0\.\.(n |all|self|EVENTS|10)'
echo "4 equality, order, copying, conversion, printing by hand"
kind '4a equality' 'fn is\(self'
kind '4b conversion' 'fn (code|of|number)\('
kind '4c printing' '(Guest|What)::[A-Z][a-z]+(\(who\))? => (println|\{)'
echo "5 facts said again and again, parameters that travel together"
kind '5a the length of a letter or a page' '(requires|ensures).*length .* ≡ (64|72)'
kind '5b a window is sound' 'Sound (result|self|c)'
kind '5c a node is awake; it is tidy' '(requires|ensures) (awake|tidy)'
kind '5d what a call used; the calm rounds stay as counted' 'ensures (used|steady)'
kind '5e a play goes with its hosts' 'Playing '
kind '5f plan: whether at random, and the word' 'random: bool, x: u64'
kind '5g a letter is lost, is kept; what a fall leaves' 'lost: bool, kee?p|x: u64, b: bool'
kind '5h rt, hosts and night' 'hosts: &mut Hosts, night|hosts: &mut Hosts,$'
echo "6 buffers with a length beside, parallel arrays"
kind '6a an array or a slice, and how much of it is in use' '^ +(flights: \[|bytes: \[|slots: &|events: &).*'
kind '6b parallel arrays' 'touched: &'
echo "7 switches on which step to run"
kind '7a a state or a letter picks the function' '^ +(State|Kind)::[A-Z][a-z]+(\(x\))? => self\.'
kind '7b begin, do, end' 'let due = (match )?self.begin'
