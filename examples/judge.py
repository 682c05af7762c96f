"""How a program is judged, case by case: each difference is printed, and last `COUNT compared, N differ`."""


def judged(differences):
    """One item a case: what differs, or None. The status to end with."""
    count = differ = 0
    for what in differences:
        count += 1
        if what is not None:
            differ += 1
            print(f"differs: {what}")
    print(f"{count} compared, {differ} differ")
    return 1 if differ else 0
