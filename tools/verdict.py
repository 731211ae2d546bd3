"""What a check says at its end."""


def say(passed, failed):
    """Prints as the last line how many parts passed and how many failed, and returns the exit status: 0 if some passed and
    none failed."""
    print(f"{passed} passed, {failed} failed")
    return 0 if passed and not failed else 1


def say_of(what, checks):
    """Prints what is wrong with each check that has something wrong, a pair of a name and a text, and then as `say`."""
    passed = failed = 0
    for name, wrong in checks:
        passed, failed = passed + (not wrong), failed + bool(wrong)
        if wrong:
            print(f"{what}: {name}: {wrong}", flush=True)
    return say(passed, failed)
