"""Where the crates of a layered picture stand, by what each uses: for tools/pictures.py."""
GAP, THREAD, SWEEPS = 26, 14, 60


def uses_of(text):
    """crates.txt: what each crate uses of this repository."""
    lines = [line.split(":") for line in text.split("\n") if ":" in line and not line.startswith("#")]
    names = {name for name, _ in lines}
    return {name: [used for used in rest.split() if used in names] for name, rest in lines}


def reach(uses, name):
    """All that a crate stands on."""
    found = set()
    for used in uses[name]:
        found |= {used} | reach(uses, used)
    return found


def direct(uses):
    """What each crate stands on that no other one which it uses brings."""
    below = {name: reach(uses, name) for name in uses}
    return {name: [used for used in found if not any(used in below[other] for other in found)]
            for name, found in uses.items()}


def ranks(uses):
    """The row of each crate, from the bottom: above all that it uses, and where its lines are shortest in all."""
    rows = {}
    for _ in uses:
        for name, found in uses.items():
            rows[name] = 1 + max([rows.get(used, 0) for used in found], default=-1)
    users = {name: [other for other in uses if name in uses[other]] for name in uses}
    for _ in range(4):
        for name in uses:
            low = 1 + max([rows[used] for used in uses[name]], default=-1)
            high = min([rows[user] for user in users[name]], default=low + 1) - 1
            rows[name] = max(low, high) if len(users[name]) >= len(uses[name]) > 0 else low
    return rows


def with_threads(uses, rows):
    """Each line cut into pieces from row to row: the places (crates, and where a line passes a row), and the pieces."""
    places = {(name,): row for name, row in rows.items()}
    pieces = []
    for name, found in uses.items():
        for used in found:
            chain = [(used,)] + [(used, name, row) for row in range(rows[used] + 1, rows[name])] + [(name,)]
            places.update({place: place[2] for place in chain[1:-1]})
            pieces += list(zip(chain, chain[1:]))
    return places, pieces


def ordered(places, pieces):
    """The places of each row from left to right, so that few lines cross: by the middle of their neighbours."""
    rows = [[place for place in places if places[place] == row] for row in range(max(places.values()) + 1)]
    near = {place: [] for place in places}
    for low, high in pieces:
        near[low].append(high)
        near[high].append(low)
    at = {place: number / len(row) for row in rows for number, place in enumerate(row)}
    best = (crossings(rows, pieces), [list(row) for row in rows])
    for turn in range(SWEEPS):
        for row in rows if turn % 2 else reversed(rows):
            side = -1 if turn % 2 else 1
            def middle(place):
                beside = [at[other] for other in near[place] if (places[other] - places[place]) * side > 0]
                return sum(beside) / len(beside) if beside else at[place]
            row.sort(key=middle)
            at.update({place: (number + 0.5) / len(row) for number, place in enumerate(row)})
        best = min(best, (crossings(rows, pieces), [list(row) for row in rows]), key=lambda it: it[0])
    return best[1], near


def crossings(rows, pieces):
    """How many pairs of pieces cross."""
    at = {place: number for row in rows for number, place in enumerate(row)}
    level = {place: number for number, row in enumerate(rows) for place in row}
    count = 0
    for row in range(len(rows)):
        ends = [(at[low], at[high]) for low, high in pieces if level[low] == row]
        count += sum((a - c) * (b - d) < 0 for n, (a, b) in enumerate(ends) for c, d in ends[:n])
    return count


def spread(rows, near, width):
    """The middle of each place, such that lines are straight and no two places of a row meet."""
    room = {place: width(place[0]) + GAP if len(place) == 1 else THREAD for row in rows for place in row}
    middle = {}
    for row in rows:
        left = -sum(room[place] for place in row) / 2
        for place in row:
            middle[place] = left + room[place] / 2
            left += room[place]
    for _ in range(SWEEPS * 4):
        for row in rows:
            wish = [sum(middle[other] for other in near[place]) / len(near[place]) if near[place] else middle[place]
                    for place in row]
            middle.update(zip(row, settled(wish, [room[place] for place in row])))
    return middle


def settled(wish, room):
    """Places that keep their order and their room, and are near to what they wish: neighbours that meet go together."""
    blocks = []
    before = 0
    for at, size in zip(wish, room):
        before += size / 2
        blocks.append([at - before, 1, [before]])
        before += size / 2
        while len(blocks) > 1 and blocks[-2][0] > blocks[-1][0]:
            start, count, offsets = blocks.pop()
            other = blocks[-1]
            other[0] = (other[0] * other[1] + start * count) / (other[1] + count)
            other[1] += count
            other[2] += offsets
    return [start + offset for start, _, offsets in blocks for offset in offsets]
