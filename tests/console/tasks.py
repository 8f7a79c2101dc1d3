"""What administrators and auditors want to do, with the number of clicks. Typing is no click."""

from .browser import Browser, bank

MOST_FOR_EXPLAIN, MOST_FOR_ASSIGN = 4, 5


def check_tasks(bench):
    """Who may open the vault and why; erin as teller; who has what; who granted that and when."""
    with bank(bench) as front, Browser(bench, front) as page:
        clicks = {}

        def begin():
            page.open("")
            page.clicks = 0

        begin()
        page.follow("Objects")
        page.follow("vault")
        page.click("Who may do it, and why", "section:nth-of-type(2)")
        page.until(lambda: "ann\tauthorized for branch manager" in page.text(), "who may open the vault")
        bench.same("carol too", "carol\tauthorized for branch manager" in page.text(), True)
        clicks["who may open the vault"] = page.clicks
        begin()
        page.follow("Explain")
        form = "Ask whether something is allowed"
        for label, text in (("Name", "ann"), ("do the operation", "open"), ("on the object", "vault")):
            page.fill(label, text, form)
        page.click("Explain", f'form[aria-label="{form}"]')
        page.until(lambda: "ann is assigned to branch manager, to which it is granted." in page.text(), "an explanation")
        clicks["why may ann open the vault"] = page.clicks
        begin()
        page.follow("Users")
        page.follow("erin")
        notice = page.submit("Assign", "Assign a role", Role="teller")
        bench.same(
            "erin as teller", notice, "erin can't become teller: erin is auditor, and audit allows one of auditor, teller."
        )
        clicks["make erin a teller"] = page.clicks
        front.ask("revokePermission", {"object": "vault", "operation": "open", "role": "branch manager"})
        front.ask("grantPermission", {"object": "vault", "operation": "open", "role": "branch manager"}, Office_Reason="ticket 7")
        begin()
        page.follow("Record")
        page.fill("Object", "vault", "Filter the record")
        page.follow("Filter", 'form[aria-label="Filter the record"]')
        bench.same("who granted it", "open\topen on vault is granted to branch manager.\tticket 7" in page.text(), True)
        clicks["who granted that, and when"] = page.clicks
        bench.judge("clicks", [f"{what}: {count}" for what, count in clicks.items()
                               if count > (MOST_FOR_EXPLAIN if "may" in what else MOST_FOR_ASSIGN)])  # fmt: skip
        return {f"clicks: {what}": count for what, count in clicks.items()}
