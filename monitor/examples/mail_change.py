#!/usr/bin/env python3
"""Mails changes of state: a command for `nagsched-monitor --on-change`.

    nagsched-monitor --on-change "monitor/examples/mail_change.py monitor@example.org oncall@example.org" DIR

It reads changes from its standard input, a JSON object on each line, and sends one mail for all of them to the server on this machine (or to `--server
HOST[:PORT]`). It exits with 1 if the server doesn't take the mail; the monitor tries again then.
"""
import argparse
import email.message
import email.utils
import json
import smtplib
import sys


def mail_of(changes, sender, receiver):
    """The mail for changes."""
    mail = email.message.EmailMessage()
    mail["From"], mail["To"], mail["Date"] = sender, receiver, email.utils.formatdate(changes[-1]["time"])
    last = [f"{change['name']} is {change['state']}{' FLAPPING' * change['flapping']}" for change in changes]
    mail["Subject"] = last[0] if len(last) == 1 else f"{last[0]}, and {len(last) - 1} more"
    mail.set_content("\n".join(
        f"{change['name']} was {change['was']}, and is {change['state']} {change['kind']} {change['attempt']}{' FLAPPING' * change['flapping']}.\n\n"
        f"{change['output']}\n" for change in changes
    ))
    return mail


def main():
    arguments = argparse.ArgumentParser(description=__doc__, formatter_class=argparse.RawDescriptionHelpFormatter)
    arguments.add_argument("sender")
    arguments.add_argument("receiver")
    arguments.add_argument("--server", default="localhost")
    words = arguments.parse_args()
    mail = mail_of([json.loads(line) for line in sys.stdin], words.sender, words.receiver)
    try:
        with smtplib.SMTP(words.server, timeout=20) as server:
            server.send_message(mail)
    except (OSError, smtplib.SMTPException) as error:
        print(f"mail_change: {words.server}: {error}", file=sys.stderr)
        return 1
    return 0


if __name__ == "__main__":
    sys.exit(main())
