# What messages come to under a roster, read without the desk: a line for each name, as
# `ann 7 granted 20260105091500Z 20260105102959Z`, in the order of desk-audit(1).
#
#   python3 -c 'import json, sys, tomllib; json.dump(tomllib.load(sys.stdin.buffer), sys.stdout)' \
#       < roster.toml > roster.json
#   jq -rn --slurpfile roster roster.json -f second-reading.jq messages.txt

def holds($person; $duty; $at):
  any(($roster[0].people[$person] // [])[];
    if type == "string" then . == $duty
    else .duty == $duty and .from <= $at[0:8] and $at[0:8] <= .until end);

def has_conflict($person; $duty; $at):
  any($roster[0].conflicts[];
    (.[0] == $duty and holds($person; .[1]; $at)) or (.[1] == $duty and holds($person; .[0]; $at)));

# ---- a request

def seconds: strptime("%Y%m%d%H%M%SZ") | mktime;

# The command lies inside the other.
def is_inside($other):
  (split(" ")[0]) as $path
  | . == $other or $other == "ALL"
    or ($other | endswith("/")) and startswith("/") and (endswith("/") | not)
      and ($path | sub("[^/]*$"; "")) == $other
    or $path == $other;

def is_admitted:
  . as $asked
  | $roster[0].ceilings[.ceiling] as $ceiling
  | $roster[0].people[.by] != null and $ceiling != null
    and holds(.by; $ceiling.ask; .at)
    and .hosts - $ceiling.hosts == []
    and ([.runas] - $ceiling.runas == [])
    and all(.cmnds[]; . as $command | any($ceiling.commands[]; . as $it | $command | is_inside($it)))
    and .at <= .from and .from <= .until
    and (.until | seconds) - (.from | seconds) <= $ceiling.longest;

# ---- the verdicts on it

# The verdict of whoever may approve and refuse at its own moment.
def is_eligible($asker; $duty):
  .by != $asker and holds(.by; $duty; .at) and (has_conflict(.by; $duty; .at) | not);

def may_revoke($asker; $duty): .by == $asker or holds(.by; $duty; .at);

def status($asked; $verdicts):
  $roster[0].ceilings[$asked.ceiling] as $ceiling
  | [$verdicts[] | select(is_eligible($asked.by; $ceiling.approve))] as $eligible
  | [$eligible[] | select(.kind == "approve")]
  # the moments at which each person first approved
  | group_by(.by) | map(map(.at) | min) | sort | .[$ceiling.needs - 1] as $complete
  | [$verdicts[] | select(.kind == "revoke" and may_revoke($asked.by; $ceiling.approve)).at | seconds]
    as $revoked
  | if any($eligible[]; .kind == "refuse" and ($complete == null or .at <= $complete)) then "refused"
    elif $complete == null then "waiting"
    else
      ([$asked.from, $complete] | max | seconds) as $first
      | ([($asked.until | seconds), ($revoked[] - 1)] | min) as $last
      | if $first <= $last
        then "granted \($first | strftime("%Y%m%d%H%M%SZ")) \($last | strftime("%Y%m%d%H%M%SZ"))"
        else "void" end
    end;

# ---- all of them

[inputs] | unique
| group_by([.of // .by, .no])[]
| ([.[] | select(.kind == "request")]) as $asked
| [.[] | select(.kind != "request")] as $verdicts
| "\(.[0].of // .[0].by) \(.[0].no) " +
  if $asked == [] then "parked"
  elif ($asked | length) > 1 then "disputed"
  elif $asked[0] | is_admitted | not then "lapsed"
  else status($asked[0]; $verdicts) end
