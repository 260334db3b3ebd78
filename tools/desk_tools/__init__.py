"""The tools beside the desk: `desk-lint` looks through rosters and messages, `desk-import` makes a
base of a sudoers file, `desk-roster` writes a roster's people, `desk-change-roster` gives the desk
another roster, `desk-used` compares grants with what sudo logged, and `desk-evidence` puts together
what an auditor gets."""
