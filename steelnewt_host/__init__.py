"""What a host does with the sudoers file that a desk writes for it: the program desk-host.

    desk-host fetch HOST                 as /etc/desk/fetch.conf says
    desk-host fetch [--cert FILE] [--key FILE] [--ca FILE] DESK.. HOST FILE
    desk-host accept HOST ROSTER BASE    which roster and base hold, by their digests
    desk-host check [--deep]             what of this host is not as it has to be
    desk-host end-sessions               ends what the host's rights no longer cover
    desk-host starts                     what sudo started in the last 90 days
    desk-host plugin on|off              whether sudo loads the plugin that tells what it starts
    desk-host prompt                     a step for PAM, where sudo does not load it

`fetch` asks all desks, takes the newest sound file of those that are not behind what this host has,
nor unknown to it, and puts it in place in one step. On any fault the old file stays, and the status
is 1; it is 3 where this host's sudo cannot be given such a file at all. (If it is killed, or visudo
does not answer, while a new file is tried, the next fetch ends the trial.) docs/HOSTS.md has the
rest.

For Python 3.9 and later; it needs nothing beside it but sudo. scripts/host_program.py makes one
file of it, which may be copied to a host by itself. `program.py` has the words of the command,
`settings.py` those of /etc/desk/fetch.conf. In the order in which a right comes and goes:

- `asking.py` asks the desks, `signed.py` takes only what their doors signed, where the site has
  these, `answers.py` reads what they answer, `counts.py` says which of two
  states is newer and keeps this host's own, `lawful.py` knows what a desk writes, `place.py` puts
  it in place, `silence.py` ends grants where nothing is heard; `fetching.py` is all of `fetch`.
- sudo's plugin (packaging/host/desk_host.c; `plugin.py` has sudo load it) writes down what starts:
  `records.py` reads that, `groups.py` knows its control group, `kept.py` keeps a line of it.
  `sudo_words.py` reads a sudo's words where there is no plugin.
- `processes.py` reads /proc, `sessions.py` says what users run, `judging.py` asks sudo about it,
  `ending.py` ends what it no longer allows; `timers.py` and `ends.py` do so at a grant's end.
- `check.py` has the probe, and `rights.py`, `canaries.py`, `watched.py`, `pam.py` and
  `self_test.py` what it finds.
"""
