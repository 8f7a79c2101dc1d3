"""The console of the front, as people use it in Chromium.

    sources     the size of the files of the console, and what they may not name
    serving     the files of the console and their headers; the parts of the front that only the console asks for
    page        the commands and the pictures of docs/howto/console.md
    pages       each page with its actions and refusals, on the bank
    many        lists that are longer than one answer: counts, parts, and every row can be reached
    hierarchy   separation of duty through the hierarchy; who may do something, without who is locked or whose role has no session
    notices     notices, what could not be read, Refresh, Back, the focus after a change
    downloads   reports as files: beside those of the tools, by tickets; who may have them
    reports     the page Reports, and the difference of two copies
    trying      What if: answers, effects, the request, and what is done for real
    reviews     Review: from the beginning to the entry in the record, files, paper
    tasks       what administrators and auditors want to do, with the number of clicks
    rights      callers who may not do everything, and a token that is nowhere
    hostile     names that are markup or can't be seen; pages of another origin
    lost        a front that goes away and comes back
    between     a proxy between the browser and the front, which loses answers, replaces them, and holds up requests
    answers     what the page says if an answer isn't the front's, is lost, or is that of a command that the browser has sent again
    revisions   pages of one revision of the policy while somebody else changes it, and what is shown after a refusal
    sentences   sentences that are true, also for who may not see everything
    looks       the keyboard alone, widths, dark, print, rules of accessibility, and the pictures of docs/howto/console.md
    limits      an office that is full, with --long
    browser     runs Chromium and looks at its pages
"""
