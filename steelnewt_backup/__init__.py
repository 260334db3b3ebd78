"""All state of a machine of a privileged access desk: taken while the machine serves, and put back.

state.toml lists what there is; desk-backup takes it (backup.py), desk-restore puts it back
(restore.py), says what is lost (lost.py), and tries a backup beside the live desk (drill.py).
"""
