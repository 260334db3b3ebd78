"""What each tag of a command and each setting of a Defaults line does to what a rule gives.

A base has no tag but NOPASSWD, and no Defaults: these stay on the host, and hold there for the
base's rules as they did for the file's. So a command means the same without its tag only where
nothing on the host gives the tag's flag another value.
"""

from collections.abc import Iterable
from typing import Any, NamedTuple


class Tag(NamedTuple):
    """A flag of a command: the tags that set it and take it away, its value where nobody says one,
    and what the flag does."""

    yes: str
    no: str
    is_on: bool
    effect: str


# by the names that cvtsudoers has for them, which are those of the settings
TAGS = {
    "authenticate": Tag("PASSWD", "NOPASSWD", True, "tightens"),
    "noexec": Tag("NOEXEC", "EXEC", False, "tightens"),
    "intercept": Tag("INTERCEPT", "NOINTERCEPT", False, "tightens"),
    "setenv": Tag("SETENV", "NOSETENV", False, "loosens"),
    "sudoedit_follow": Tag("FOLLOW", "NOFOLLOW", False, "loosens"),
    "log_input": Tag("LOG_INPUT", "NOLOG_INPUT", False, "tightens"),
    "log_output": Tag("LOG_OUTPUT", "NOLOG_OUTPUT", False, "tightens"),
    "send_mail": Tag("MAIL", "NOMAIL", False, "neither"),
}
# options with a value, none of which a base can say
OPTIONS = {
    "runcwd": "CWD",
    "runchroot": "CHROOT",
    "command_timeout": "TIMEOUT",
    "role": "ROLE",
    "type": "TYPE",
    "apparmor_profile": "APPARMOR_PROFILE",
    "privs": "PRIVS",
    "limitprivs": "LIMITPRIVS",
}
# what more of the rights or of the command's freedom there is where a setting is on
LOOSENS = """
    closefrom_override env_file env_keep exempt_group ignore_audit_errors ignore_iolog_errors
    ignore_local_sudoers ignore_logfile_errors ignore_unknown_defaults intercept_allow_setid
    match_group_by_gid pam_silent preserve_groups runas_allow_unknown_id setenv sudoedit_follow
    umask_override use_netgroups user_command_timeouts visiblepw root_sudo stay_setuid
    always_query_group_plugin group_plugin case_insensitive_user case_insensitive_group env_editor
    shell_noargs fdexec runas_default noninteractive_auth
"""
TIGHTENS = """
    always_set_home apparmor_profile authenticate closefrom command_timeout env_check env_delete
    env_reset fast_glob fqdn ignore_dot intercept intercept_authenticate intercept_type
    intercept_verify lecture limitprivs listpw log_allowed log_denied log_exit_status log_input
    log_output log_passwords log_server_cabundle log_server_keepalive log_server_peer_cert
    log_server_peer_key log_server_timeout log_server_verify log_servers log_stderr log_stdin
    log_stdout log_subcmds log_ttyin log_ttyout netgroup_tuple noexec noexec_file pam_acct_mgmt
    pam_session pam_setcred passwd_tries passwd_timeout path_info privs requiretty
    restricted_env_file rlimit_as rlimit_core rlimit_cpu rlimit_data rlimit_fsize rlimit_locks
    rlimit_memlock rlimit_nofile rlimit_nproc rlimit_rss rlimit_stack role rootpw runas_check_shell
    runaspw runchroot runcwd secure_path selinux set_home sudoedit_checkdir targetpw
    timestamp_timeout timestamp_type timestampdir timestampowner tty_tickets type umask
    use_loginclass use_pty verifypw editor admin_flag
"""
NEITHER = """
    authfail_message badpass_message cmddenial_message compress_io exec_background insults iolog_dir
    iolog_file iolog_flush iolog_group iolog_mode iolog_user lecture_file lecture_status_dir
    legacy_group_processing log_format log_host log_year logfile loglinelen long_otp_prompt
    mail_all_cmnds mail_always mail_badpass mail_no_host mail_no_perms mail_no_user mailerflags
    mailerpath mailfrom mailsub mailto maxseq pam_askpass_service pam_login_service pam_rhost
    pam_ruser pam_service passprompt passprompt_override passprompt_regex pwfeedback set_logname
    set_utmp sudoers_locale syslog syslog_badpri syslog_goodpri syslog_maxlen syslog_pid utmp_runas
"""
EFFECTS = {
    name: effect
    for effect, names in (("loosens", LOOSENS), ("tightens", TIGHTENS), ("neither", NEITHER))
    for name in names.split()
}
TURNED = {"loosens": "tightens", "tightens": "loosens", "neither": "neither"}


def effect_of(name: str, value: Any) -> str:
    """What a setting with this value does to the rights; what is not known may do anything."""
    effect = EFFECTS.get(name, "tightens")
    return TURNED[effect] if value is False else effect


def may_be(flag: str, settings: Iterable[tuple[str, Any]], is_all: bool) -> set[bool]:
    """The values that a flag may have for a command without a tag, by the settings of all Defaults
    lines, whatever their scopes. (ALL by itself has SETENV.)"""
    if flag == "setenv" and is_all:
        return {True}
    tag = TAGS[flag]
    return {tag.is_on, *(bool(value) for name, value in settings if name == flag)}


def unsaid_tag(flag: str, value: bool, settings: list[tuple[str, Any]], is_all: bool) -> str | None:
    """The tag, where a command without it may mean something else; None where it means the same."""
    tag = TAGS[flag]
    is_said = tag.effect == "neither" or (flag == "authenticate" and not value)
    if is_said or may_be(flag, settings, is_all) == {value}:
        return None
    return tag.yes if value else tag.no


def loosens(flag: str, value: Any) -> bool:
    """Whether a flag of a command lets more be done with this value."""
    return flag in TAGS and value is (TAGS[flag].effect == "loosens")
