#!/usr/bin/env python3
"""Compares the 160 cells of the event table in docs/PROTOCOL.md with the definition in crates/ppp_auto/specs/EventTable.antt.

Run by hand at the top of the repository: tools/compare_cells.py"""
import re
import sys

STATES = ["Initial", "Starting", "Closed", "Stopped", "Closing", "Stopping", "ReqSent", "AckRcvd", "AckSent", "Opened"]
ROWS = {"Up": "on_up", "Down": "on_down", "Open": "on_open", "Close": "on_close", "TO+": "on_timeout_above_zero",
        "TO-": "on_timeout_expired", "RCR+": "on_request_good", "RCR-": "on_request_bad", "RCA": "on_ack",
        "RCN": "on_nak", "RTR": "on_terminate_request", "RTA": "on_terminate_ack", "RUC": "on_unknown_code",
        "RXJ+": "on_rejected_well", "RXJ-": "on_rejected_badly", "RXR": "on_echo"}
# scr' sends the last request again
ACTIONS = {"ThisLayerUp": "tlu", "ThisLayerDown": "tld", "ThisLayerStarted": "tls", "ThisLayerFinished": "tlf",
           "InitializeRestartCount": "irc", "ZeroRestartCount": "zrc", "SendConfigureRequest": "scr",
           "RepeatConfigureRequest": "scr'", "SendConfigureAck": "sca", "SendConfigureNak": "scn",
           "SendTerminateRequest": "str", "SendTerminateAck": "sta", "SendCodeReject": "scj", "SendEchoReply": "ser"}


def cells_of_document(text):
    cells = {}
    for line in text.splitlines():
        parts = [part.strip() for part in line.strip().strip("|").split("|")]
        if parts[0] in ROWS and len(parts) == 11:
            for state, cell in enumerate(parts[1:]):
                if cell in ("-", "x"):
                    cells[parts[0], state] = ([], state)
                    continue
                actions, _, following = cell.rpartition("/")
                cells[parts[0], state] = (actions.split(",") if actions else [], int(following))
    return cells


def cells_of_definition(text):
    cells = {}
    for event, name in ROWS.items():
        lines = re.findall(rf"^{name} (\w+) = (.*)$", text, re.M)
        for number, state in enumerate(STATES):
            right = next(right for left, right in lines if left == state or left == "s")
            if right.startswith("stays"):
                cells[event, number] = ([], number)
                continue
            actions, following = re.fullmatch(r"goes (?:\[\]|\((.*) ∷ \[\]\)) (\w+)", right).groups()
            listed = [ACTIONS[action] for action in actions.split(" ∷ ")] if actions else []
            cells[event, number] = (listed, number if following == "s" else STATES.index(following))
    return cells


def main():
    document = cells_of_document(open("docs/PROTOCOL.md", encoding="utf-8").read())
    definition = cells_of_definition(open("crates/ppp_auto/specs/EventTable.antt", encoding="utf-8").read())
    wrong = [cell for cell in definition if document.get(cell) != definition[cell]]
    for cell in wrong:
        print(cell, "document", document.get(cell), "definition", definition[cell])
    print(f"{len(document)} cells in the document, {len(definition)} in the definition, {len(wrong)} differ")
    return 1 if wrong or len(document) != 160 or len(definition) != 160 else 0


if __name__ == "__main__":
    sys.exit(main())
