#!/usr/bin/env python3
"""Types into the terminal: `run_terminal.py TERM5250 HOST5250 T5250 [OPTION]..`.

Its parts stand in tests/: what a clerk does, what is shown, refused records, faults, connecting, TLS, the hosts file,
what live hosts send, what hurts at a desk, what fields ask, identities and code pages, macros, sizes in tmux, random
work. With `--sanitized TERM5250` a terminal that was built with sanitizers takes the random work, which is left out
without it, and with `--without-tls TERM5250` one that was built without TLS says so. With --long it is ten minutes of
random keys, pastes, sizes, losses and records, also refused ones, five of typing beside a model of it, 120 hosts that
send garbage, and 5,000 screens; without, a little of each, and all takes about two minutes. With --only the parts whose
name has a word. Ends with 'N passed, N failed'.
"""
import argparse
import pathlib
import sys
import time
import traceback

sys.dont_write_bytecode = True
HERE = pathlib.Path(__file__).resolve().parent
sys.path[:0] = [str(HERE / "tests"), str(HERE.parent / "tests")]
import connecting
import desk
import entry
import faults
import hosts
import hosts_file
import identity
import in_tmux
import live
import long
import macros
import refusals
import secured
import shown
import window
import work


def arguments():
    reader = argparse.ArgumentParser(description=__doc__.split("\n", maxsplit=1)[0])
    reader.add_argument("programs", nargs=3)
    reader.add_argument("--sanitized")
    reader.add_argument("--without-tls")
    reader.add_argument("--long", action="store_true")
    reader.add_argument("--only", default="")
    reader.add_argument("--times", action="store_true")
    return reader.parse_args()


def parts(words):
    yield from (work.sign_on_and_form, work.names_and_signals, work.holds, work.without_hold, work.typed_ahead,
                work.typed_too_far_ahead, work.pastes, work.against_serve)
    yield from (shown.attributes, shown.grounds, shown.locales, shown.characters, shown.status_line,
                shown.blinking_without_shapes, shown.at_24_rows, shown.small_windows, shown.stopped,
                shown.function_keys, shown.keypad, shown.editing, shown.keys_files, shown.print_screen)
    yield from (refusals.refused_record, refusals.in_a_row, refusals.at_24_rows, refusals.by_name,
                refusals.over_by_bytes)
    yield from (faults.recordings, faults.cutting, faults.cut_behind_iac, faults.kept_is_the_last, faults.bad_peers,
                faults.synch, faults.ipv6, faults.floods, faults.stalled, faults.while_connecting, faults.in_the_menu,
                faults.command_lines, faults.without_a_terminal, faults.without_standard_error,
                faults.unwritable_files)
    yield from (connecting.the_box, connecting.again_where_nobody_is, connecting.wrapped, connecting.by_itself,
                connecting.typed_on, connecting.at_first, connecting.silences)
    yield from (secured.right, secured.refused_certificates, secured.refused_later, secured.own_certificate,
                secured.broken, secured.no_tls_there, secured.tls_words)
    yield from (hosts_file.named, hosts_file.wrong_hosts, hosts_file.listed)
    yield from (live.asked, live.an_error, live.alarm, live.alarm_refused, live.many_saves, live.strict)
    yield from (desk.pastes_too_long, desk.pastes_into_options, desk.pastes_that_wait, desk.enters_too_many,
                desk.without_type_ahead, desk.missing_fields, desk.numbers, desk.inserting, desk.keys_of_others,
                desk.wheel, desk.typed_escapes, desk.error_of_the_host)
    yield from (entry.field_exit_required, entry.mandatory_fill, entry.auto_enter, entry.auto_enter_ahead,
                entry.auto_enter_pasted, entry.monocase, entry.insert_room)
    yield from (identity.names_told, identity.names_refused, identity.german, identity.euros, identity.wrong_words)
    yield from (macros.over_two_screens, macros.over_screens_that_send_themselves, macros.never_into_a_hidden_field,
                macros.stops, macros.over_a_lost_line, macros.keeping)
    yield in_tmux.sizes

    def screens():
        work.screens_in_a_row(5000 if words.long else 500)

    def random_work():
        long.random_work(5250, words.sanitized, 600 if words.long else 20)

    def random_typing():
        long.typing(3477, words.sanitized, 300 if words.long else 10)

    def garbage_hosts():
        long.garbage_hosts(1205, words.sanitized, 120 if words.long else 20)

    def built_without_tls():
        secured.without_tls(words.without_tls)

    if words.without_tls:
        yield built_without_tls
    yield screens
    if words.sanitized:
        yield from (random_work, random_typing, garbage_hosts)
    else:
        print("left out: random work at the terminal, since no program with sanitizers is named")


def main():
    words = arguments()
    programs = [str(pathlib.Path(name).resolve()) for name in words.programs]
    window.Terminal.program, hosts.Host5250.program, window.Terminal.t5250 = programs
    for part in parts(words):
        if words.only not in part.__name__:
            continue
        begun = time.monotonic()
        try:
            part()
        except Exception:  # What isn't there is told, and the other parts go on.
            window.check(False, part.__name__, traceback.format_exc())
        if words.times:
            print(f"{part.__name__}: {time.monotonic() - begun:.1f} seconds")
    print(f"{window.Counts.passed} passed, {window.Counts.failed} failed")
    return window.Counts.failed > 0


if __name__ == "__main__":
    sys.exit(main())
