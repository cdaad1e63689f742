"""judge_page.py: prints docs/JUDGE.md: what the verdicts mean, and the sample session record by record, with its two faults."""

from judge import judge_lines
from report import DEFAULT_WORDS, read_setting
from sample_judge import FAULTS, RECORDS, sample

HEAD = """# Judging another maker's session

`PROGRAM=judge ./run` judges the sample `docs/samples/judge`; `PROGRAM=judge ./run FILE RADIO-PORT IPS-PORT DATALINK` a capture of your own (the words and the captures are those of `report`, docs/REPORT.md). It prints the line `channel verdict`, then one line for each channel from 0 to 254:

| Line | Verdict |
|---|---|
| `C passes` | every data message that the IPS end sent on channel C obeys; with none, too |
| `C breach RECORD` | the first that doesn't is the record of that number: the file's records, all of them, are counted from 1 |
| `C undecided` | of every channel: the capture has a fragment or a record that it shortened, or it is one that `report` refuses by 25 or 26, as where it can't be read to its end |

A line that can't be written ends the program, and standard error says so.

What a channel is, the latest radio control message before says: not seen while there is none; free without a Flow Window option for it; without a window where the option has no field; else under that window. A data message that names no channel is on channel 0. It obeys

- on a free channel, if it carries no Flow Sequence;
- under a window, if it carries the base plus its packet's bytes, modulo 2^32, and these are at most the distance from the base to the window. The base is the Flow Sequence that the last data message with one carried on the channel; for the first it is its own less its bytes;
- never while there is no window, or before any radio control message.

On standard error it then says `judged N skipped M`: how many data messages of the IPS end the reader accepted, and how many records were neither a datagram to the radio's port nor one to the IPS end's (as `report` skips them), up to the end of the capture or to where it is refused. With `judged 0` no channel has a breach: unless the capture is undecided every one passes, and nothing is said of the endpoint.

Statuses aren't judged. Queries, the radio's data messages, datagrams that the reader refuses and records of other kinds are passed over, and count as records.

## What else can look like a breach

The verdict is about the recording. These make a good endpoint look bad, or hide a fault:

- **More than one session in a capture.** Addresses and source ports aren't looked at: two routers, or one that was started anew, are judged as one. Cut the capture apart first (`tcpdump -r FILE -w PART host ADDRESS`).
- **Another order than the IPS end's.** The capture has to hold the messages in the order in which the IPS end saw them. Recorded at the radio, a window that was on its way while a packet was sent stands before that packet: a smaller or withdrawn one then looks like a breach, a larger one hides one.
- **Frames recorded twice.** A mirror port may hand over each frame as it comes and as it goes. The copy of a data message with a Flow Sequence carries the same number once more, and is a breach. Take the copies out first (`editcap -d FILE PART`).
- **Records that are missing.** A data message that the capture lost makes the next one a breach, by its sequence. A lost radio control message leaves the window before it in force.
- **Radio messages that the IPS end didn't take.** One that was lost behind the place of the recording, or that the endpoint refused for a reason which the bytes don't show (ours refuses one whose time is before its clock, number 21), is heard here: if it granted less, a packet within the window before it looks like a breach.
- **A capture that begins in the middle.** Data messages before the first radio control message are breaches.
- **A channel that the IPS end takes as plain.** Where the radio grants it windows, every packet without a Flow Sequence is a breach, whichever end is configured wrongly.
- **Other ports or another Datalink ID.** Messages under another are passed over, and a channel without data messages passes. `report` counts what was read.
- **A session behind VLAN tags.** Each of its records is of another kind and skipped: every channel passes, and none was judged (`judged 0`).
- **Fragments behind VLAN tags or in IPv6** are records of other kinds: they are passed over, and nothing is undecided for them.

## The sample's records

| Record | What it is |
|---|---|"""
FAULT_HEAD = """
## The same session with a fault

Both faults look right in a test that is short of the wrap, or that never withdraws a window. `docs/FLIGHT.md` has the same places in a flight of our endpoint.

| Capture | The fault | Line |
|---|---|---|"""
FAULT_WORDS = {
    "wrap": "windows compared as plain numbers: behind record 6, 54 is less than 4294967290, and the packet that had to wait (record {waited} above) is sent as record {early}",
    "withdrawn": "a withdrawn window used on: behind record 13 the window 1054 is still taken as in force, and the packet that had to wait (record {waited} above) is sent as record {early}",
}


def lines_of(fault=None):
    """What the program prints of the session."""
    return list(judge_lines(read_setting(DEFAULT_WORDS), sample(fault)))


def folded(lines):
    """The first lines, and the last behind a row of dots: those between say that their channel passes."""
    if any(line != f"{channel} passes" for channel, line in enumerate(lines[1:]) if channel > 3):
        raise ValueError("a channel above 3 that doesn't pass")
    return [*lines[:5], "..", lines[-1]]


def main():
    """Print the page."""
    print(HEAD)
    for number, (what, _) in enumerate(RECORDS, 1):
        print(f"| {number} | {what} |")
    print("\nIts verdicts, 256 lines; those between say of their channels that they pass, as the last does:\n")
    for line in folded(lines_of()):
        print(f"    {line}")
    print(FAULT_HEAD)
    for fault, (waited, early) in FAULTS.items():
        changed = [line for line, before in zip(lines_of(fault), lines_of()) if line != before]
        print(f"| `docs/samples/judge-{fault}` | {FAULT_WORDS[fault].format(waited=waited, early=early)} | `{', '.join(changed)}` |")
    print("\nAll other lines are as above.")


if __name__ == "__main__":
    main()
