#!/usr/bin/python3
"""Draws what the budgets of one search gave.

usage: budgets.py BUDGETS REPORTS RUN PNG

BUDGETS is the list that the search was given as `budget=`: two numbers or more, the last of them `all`.
REPORTS is what the search printed, RUN the file of run lines that it wrote. PNG is written. Drawn over
the sum of the budgets, which stand at their true distances on a logarithmic axis: the overlap with the
last, exhaustive answer, as its mean and its quartiles; the share of answers whose postings were all
scored, of those final before, and of those set; and the mean of the postings scored. Needs the package
python3-matplotlib.
"""
import re
import sys

from common import Bad, lines_of, run_script

REPORT = re.compile(
    r"([^ ]+) postings ([0-9]+) segments ([0-9]+) of ([0-9]+) cutoff [0-9]+ next [0-9]+ bound [0-9]+ "
    r"unknown [0-9]+ (final|set|open)")
RUN = re.compile(r"([^ ]+) Q0 ([^ ]+) ([1-9][0-9]*) ([0-9]+) ([^ ]+)\.([1-9][0-9]*)")


def read_budgets(word):
    """The sum of the budgets at each place, as labels."""
    parts = word.split(",")
    if not 2 <= len(parts) <= 16:
        raise Bad("BUDGETS: from 2 to 16 are needed")
    if parts[-1] != "all":
        raise Bad("BUDGETS: the last one must be all")
    if not all(re.fullmatch(r"[0-9]{1,20}", part) for part in parts[:-1]):
        raise Bad("BUDGETS: numbers, and all at the end")
    sums = [0]
    for part in parts[:-1]:
        sums.append(sums[-1] + int(part))
    return [str(total) for total in sums[1:]] + ["all"]


def read_reports(path, labels):
    """The reports of each query, one for each budget, as (postings, whether all are scored, grade)."""
    count = len(labels)
    reports = {}
    lines = lines_of(path)
    if not lines or len(lines) % count:
        raise Bad(f"{path}: {len(lines)} lines are no reports of {count} budgets")
    for number, line in enumerate(lines):
        match = REPORT.fullmatch(line)
        if not match:
            raise Bad(f"{path}: line {number + 1} is no report line")
        query = match[1]
        if number % count == 0 and query in reports:
            raise Bad(f"{path}: line {number + 1}: {query} has reports already")
        if number % count and query not in list(reports)[-1:]:
            raise Bad(f"{path}: line {number + 1}: {query} stands among the reports of another query")
        reports.setdefault(query, []).append((int(match[2]), match[3] == match[4], match[5]))
        if number % count and int(match[2]) < reports[query][-2][0]:
            raise Bad(f"{path}: line {number + 1}: fewer postings than before")
        if number % count < count - 1 and int(match[2]) > int(labels[number % count]):
            raise Bad(f"{path}: line {number + 1}: more postings than the budget")
        if number % count == count - 1 and match[3] != match[4]:
            raise Bad(f"{path}: line {number + 1}: the last budget did not score all segments")
    return reports


def read_run(path, queries, count):
    """The documents by query and place of the budget."""
    answers = {(query, place): [] for query in queries for place in range(count)}
    tag = None
    for number, line in enumerate(lines_of(path), 1):
        match = RUN.fullmatch(line)
        if not match:
            raise Bad(f"{path}: line {number} is no run line of a search with several budgets")
        hits = answers.get((match[1], int(match[6]) - 1))
        if hits is None:
            raise Bad(f"{path}: line {number} is of a query or a budget without a report")
        if tag not in (None, match[5]):
            raise Bad(f"{path}: line {number} has another tag")
        tag = match[5]
        if int(match[3]) != len(hits) + 1:
            raise Bad(f"{path}: line {number} has not the next rank")
        hits.append(match[2])
    return answers


def overlap(hits, best):
    """The share of the exhaustive answer that is in the hits."""
    return len(set(hits) & set(best)) / len(best)


def quantile(values, part):
    """The value below which this part of the sorted values lies, between two of them by their distance."""
    place = part * (len(values) - 1)
    low = int(place)
    high = min(low + 1, len(values) - 1)
    return values[low] + (values[high] - values[low]) * (place - low)


def places_of(labels):
    """Where the budgets stand on a logarithmic axis, `all` behind the last with a gap; and their labels,
    of which those are left out that would run into the one before."""
    numbers = [max(int(label), 1) for label in labels[:-1]]
    places = numbers + [numbers[-1] * 4]
    width = places[-1] / min(places)
    shown, last = [], None
    for place, label in zip(places, labels):
        near = last is not None and place / last < width ** 0.07
        if label == "all" and near:
            shown[-1] = ""
        shown.append("" if near and label != "all" else label)
        if shown[-1]:
            last = place
    return places, shown


def draw(labels, title, quartiles, shares, postings, path):
    import matplotlib
    matplotlib.use("Agg")
    from matplotlib import pyplot
    places, shown = places_of(labels)
    figure, (top, middle, bottom) = pyplot.subplots(3, 1, sharex=True, figsize=(6.4, 7.6))
    top.set_title(title, fontsize="medium")
    low, mean, high = zip(*quartiles)
    top.fill_between(places, low, high, alpha=0.2, color="tab:green", label="overlap, the middle half of the queries")
    top.plot(places, mean, "o-", color="tab:green", label="overlap, mean")
    for (label, values), shape in zip(shares, ("s-", "^--", "v:")):
        middle.plot(places, values, shape, label=label)
    for plot in (top, middle):
        plot.set_ylim(-0.03, 1.03)
        plot.set_ylabel("share")
        plot.legend(fontsize="small")
    bottom.plot(places, postings, "D-", color="black")
    bottom.set_ylim(bottom=0)
    bottom.set_ylabel("postings scored, mean")
    bottom.set_xlabel("budget in postings, summed up")
    bottom.set_xscale("log")
    bottom.set_xticks(places, shown)
    bottom.minorticks_off()
    for plot in (top, middle, bottom):
        plot.grid(alpha=0.3)
    figure.tight_layout()
    figure.savefig(path, dpi=100, format="png")


def budgets(words):
    if len(words) != 4:
        return False
    labels = read_budgets(words[0])
    reports = read_reports(words[1], labels)
    answers = read_run(words[2], reports, len(labels))
    # A query without any answer has no overlap and is left out of that mean.
    found = [query for query in reports if answers[query, len(labels) - 1]]
    if not found:
        raise Bad(f"{words[2]}: no query has an exhaustive answer")

    def share(place, holds):
        return sum(holds(*of[place][1:]) for of in reports.values()) / len(reports)

    places = range(len(labels))
    scored = [share(place, lambda whole, grade: whole) for place in places]
    final = [share(place, lambda whole, grade: not whole and grade == "final") for place in places]
    kept = [share(place, lambda whole, grade: not whole and grade == "set") for place in places]
    quartiles = []
    for place in places:
        parts = sorted(overlap(answers[query, place], answers[query, len(labels) - 1]) for query in found)
        quartiles.append((quantile(parts, 0.25), sum(parts) / len(parts), quantile(parts, 0.75)))
    postings = [sum(of[place][0] for of in reports.values()) / len(reports) for place in places]
    print("budget all-scored final-before set-before overlap lower-quartile upper-quartile postings")
    for place in places:
        low, mean, high = quartiles[place]
        print(f"{labels[place]} {scored[place]:.2f} {final[place]:.2f} {kept[place]:.2f} {mean:.3f} {low:.3f} "
              f"{high:.3f} {postings[place]:.1f}")
    most = max(len(hits) for hits in answers.values())
    title = f"{len(reports)} {'query' if len(reports) == 1 else 'queries'}, up to {most} documents each"
    shares = [("all postings scored", scored), ("final before", final), ("set before", kept)]
    draw(labels, title, quartiles, shares, postings, words[3])
    return True


if __name__ == "__main__":
    sys.exit(run_script("budgets.py", __doc__, budgets, sys.argv[1:]))
