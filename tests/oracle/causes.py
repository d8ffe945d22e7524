"""The cause of a verdict in the plain program: which thing, place or loan it is, and the sentence
that `why` prints."""
from oracle.book import agreement, is_container, is_out, last_day, objects_in, place, stage, targets

FIXED = {
    "UnknownThing": "was not in the setup",
    "UnknownPlace": "was not in the setup",
    "ElsewherePlace": "is outside the museum",
    "UnknownContainer": "was not a container in the setup",
    "UnknownLoan": "is not agreed",
    "LoanKnown": "is already agreed",
    "InsidePartner": "is inside the museum",
    "NoObjects": "lists no objects",
    "NotObject": "is a container",
    "Repeated": "is listed twice",
    "BadTerm": "ends before it begins",
    "AlreadyAuthorised": "is already authorised",
    "NotAuthorised": "is not authorised",
    "Cycle": "would be inside itself",
}
WANTED = {"return": "Away", "receive": "Awaiting"}


def why(museum, posted, number):
    """The line of an entry."""
    entry = posted[number - 1]
    message, verdict = entry.message, entry.verdict
    culprit = culprit_of(museum, posted[: number - 1], message, verdict)
    named = [message.get(key) for key in ("thing", "container", "loan", "place", "partner")]
    words = [str(number), entry.station, str(entry.n), message["kind"], *filter(None, named)]
    sentence = sentence_on(museum, posted[: number - 1], message, verdict, culprit)
    return " ".join([*words, f"{verdict}: {sentence}" if sentence else verdict])


def values(museum, posted, number):
    """The values of an entry, by column. An applied message has no culprit."""
    entry, before = posted[number - 1], posted[: number - 1]
    culprit = culprit_of(museum, before, entry.message, entry.verdict)
    sentence = sentence_on(museum, before, entry.message, entry.verdict, culprit)
    head = [str(number), entry.station, str(entry.n), entry.message["kind"], entry.verdict]
    return [*head, culprit if entry.verdict != "Applied" else "", sentence]


def culprit_of(museum, before, message, verdict):
    things = message.get("objects", [message.get("thing")])
    if verdict == "UnknownThing":
        return next(x for x in things if x not in museum.things)
    if verdict == "NotObject":
        return next(x for x in things if is_container(x))
    if verdict == "Repeated":
        return next(x for x in things if things.count(x) > 1)
    if verdict == "WrongOwner":
        return next(x for x in things if x.startswith("L") == is_out(message["loan"]))
    if verdict in ("NotListed", "WrongStage"):
        return next(
            x
            for x in objects_in(museum, targets(before), message["thing"])
            if is_off(museum, before, message, verdict, x)
        )
    if verdict in ("UnknownPlace", "ElsewherePlace", "InsidePartner"):
        return message.get("place", message.get("partner"))
    if verdict in ("UnknownContainer", "ContainerNotHere"):
        return message["container"]
    if verdict in ("Applied", "NotHere", "Cycle", "TooDeep", "NotWithPartner", "AlreadyHere"):
        return message.get("thing")
    return message["loan"]


def is_off(museum, before, message, verdict, thing):
    """Whether an object has no line of the loan, or not at the stage that it needs."""
    loan = message["loan"]
    if thing not in agreement(before, loan)["objects"]:
        return True
    wanted = WANTED.get(message["kind"], "Awaiting" if is_out(loan) else "Here")
    return verdict == "WrongStage" and stage(museum, before, loan, thing) != wanted


def sentence_on(museum, before, message, verdict, culprit):
    if culprit is None:
        return ""
    loan, within = message.get("loan"), ""
    if verdict in ("NotListed", "WrongStage") and culprit != message["thing"]:
        within = f"in {message['thing']} "
    if verdict in FIXED:
        return f"{culprit} {within}{FIXED[verdict]}"
    if verdict in ("NotHere", "ContainerNotHere", "NotWithPartner", "AlreadyHere"):
        return f"{culprit} is at {place(targets(before), culprit) or 'no place'}"
    if verdict == "Applied":
        to = (
            agreement(before, loan)["partner"]
            if message["kind"] == "exit"
            else message.get("place", message.get("container"))
        )
        return f"{culprit} went to {to}"
    return {
        "WrongOwner": lambda: f"{culprit} belongs to {('the museum', 'a lender')[is_out(loan)]}",
        "WrongDirection": lambda: f"{culprit} is a loan {'out' if is_out(loan) else 'in'}",
        "TooDeep": lambda: f"{culprit} would be too deep in {message['container']}",
        "NotListed": lambda: f"{culprit} {within}is not on {loan}",
        "WrongStage": lambda: " ".join(
            [f"{culprit} {within}is", stage(museum, before, loan, culprit), f"on {loan}"]
        ),
        "TermOver": lambda: f"{culprit} ended on {last_day(before, loan)}",
        "NotLater": lambda: f"{culprit} ends on {last_day(before, loan)}",
    }[verdict]()
