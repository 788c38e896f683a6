"""The page in a browser: sheets, which are looked at, sent, and gone on with."""

import re

from program import FIRST, FIRST_REPLIES, HEADER, ends, long_sheet, sheet_of, with_files_up_to
from proxies import posted
from serving import SURVEY_HEADER, started
from stores import edit
from web_page import browser, page, service

# What a person does who drops a file on the page.
DROP = """
const given = new DataTransfer();
given.items.add(new File([arguments[1]], arguments[0]));
for (const name of ["dragover", "drop"])
  document.querySelector("#main").dispatchEvent(new DragEvent(name, { bubbles: true, cancelable: true, dataTransfer: given }));
"""


def sent(page):
    """The requests that sent a sheet."""
    return [name for name in page.requests() if re.search(r"/v1/(edits|surveys)(\?|$)", name)]


def test_a_sheet_is_looked_at_sent_and_its_lines_are_shown(page):
    browser = page.browser
    page.opens_route("A1")
    sheet = sheet_of("s1,link,1,5000", "q1,class,WIDTH,exclusive", "q2,enter,10,WIDTH,A1,B,abs,0,9000,7,0", "q3,enter,20,SPEED,A1,B,abs,3000,4000,7,0")
    page.looks_at(page.file("roads.csv", sheet))
    assert browser.text("#looked p:first-child") == f"roads.csv: an edit sheet of 4 records, {len(sheet)} bytes. It begins:"
    assert browser.runs("return document.querySelector('#looked pre').textContent") == sheet.decode()
    assert browser.runs("return document.activeElement.id") == "send" and sent(page) == []
    page.pictured("a_look")
    browser.clicks("#send")
    browser.shows("#sheet-said", "roads.csv was sent to its end, in one part.")
    assert page.rows("#lines") == [
        ["s1", "again", "edit 1"],
        ["q1", "done", "edit 167"],
        ["q2", "refused", "AssetKnown: the number of the asset was used before"],
        ["q3", "refused", "Overlap:10: asset 10 of this class lies there"],
    ]
    browser.shows("#counts", "1 done, 1 again, 2 refused.")
    colours = browser.runs("return [...document.querySelectorAll('#lines td.word')].map(c => getComputedStyle(c).backgroundColor)")
    assert len(set(colours)) == 3, colours
    # the classes and the diagram are new
    browser.shows("#classes", "WIDTH")
    browser.shows("#health", "167 edits.")
    page.pictured("reply_lines")
    assert browser.runs("return document.querySelector('#save').download") == "replies.csv"


def test_a_sheet_that_is_not_wanted_is_not_sent(page):
    browser = page.browser
    page.opens()
    page.looks_at(page.file("roads.csv", sheet_of("q1,class,WIDTH,exclusive")))
    browser.clicks("#forget")
    browser.shows("#sheet-said", "Nothing was sent.")
    assert browser.runs("return document.querySelector('#preview').hidden") and sent(page) == []


def test_what_a_sheet_would_change_is_shown_before_it_is_sent(page):
    browser = page.browser
    page.opens()
    page.looks_at(page.file("roads.csv", sheet_of("q1,class,WIDTH,exclusive", "q2,close,NONE", "q3,enter,900,WIDTH,A1,B,abs,1000,2000,7,0", "q4,close,A1")))
    assert browser.text("#looked .trial") == "It would be: 3 done, 0 again, 1 refused."
    said = browser.text("#looked .changes")
    assert "enters asset 900" in said and "adds class WIDTH" in said and "changes route A1" in said and "m of sides from" in said, said
    assert "q2" in browser.text("#looked li") and "-,route,A1," in browser.runs("return document.querySelector('#looked details pre').textContent")
    assert sent(page) == []
    page.pictured("a_trial")
    browser.clicks("#forget")
    page.looks_at(page.file("none.csv", HEADER))
    assert browser.text("#looked .changes") == "It changes nothing of the network or its assets."


# One record of it is refused.
REFUSED = sheet_of("q1,class,WIDTH,exclusive", "q2,close,NONE")
NOTHING = "Error: Nothing was done. Not all of the sheet would be done: mend what is refused, or send it without all or nothing."


def sends_wholly(page, *paths):
    """Sends sheets all or nothing."""
    page.looks_at(*paths)
    page.browser.runs("document.getElementById('all-or-none').checked = true")
    page.browser.clicks("#send")


def test_a_sheet_is_done_wholly_or_not_at_all(page):
    browser = page.browser
    page.opens()
    sends_wholly(page, page.file("roads.csv", REFUSED))
    browser.shows("#sheet-said", NOTHING)
    # the lines that refuse alone
    assert browser.text("#counts").startswith("Nothing was done.") and browser.text("#counts").endswith("1 refused.")
    assert page.rows("#lines") == [["q2", "refused", "NoRoute: there is no route of this name"]]
    assert browser.text("#advice li").startswith("line 3") and browser.runs("return document.querySelectorAll('#lines tr.done').length") == 0
    browser.shows("#health", "166 edits.")
    page.pictured("nothing_done")
    # what was chosen stays so, and the sheet is mended
    page.sends(page.file("roads.csv", sheet_of("q1,class,WIDTH,exclusive", "q2,class,LANES,exclusive")))
    browser.shows("#sheet-said", "roads.csv was sent to its end, in one part. Nothing of it was refused.")
    browser.shows("#counts", "2 done, 0 again, 0 refused.")
    assert browser.text("#advice") == "" and browser.text("#health").startswith("168 edits.")
    assert [name.partition("?")[2] for name in sent(page)] == ["all=1", "all=1"]
    # without it the rest is done
    page.looks_at(page.file("roads.csv", sheet_of("q3,class,KERB,stretch", "q4,close,NONE")))
    browser.clicks("#all-or-none")
    browser.clicks("#send")
    browser.shows("#counts", "1 done, 0 again, 1 refused.")
    assert sent(page)[-1].endswith("/v1/edits") and browser.text("#health").startswith("169 edits.")


def test_of_a_survey_that_is_not_done_the_sheets_behind_it_are_not_sent(page):
    browser = page.browser
    page.opens()
    survey = page.file("survey.csv", SURVEY_HEADER + b"w1,30,SIGN,A1,L,abs,1000,,TOWN,0\nw2,30,SIGN,A1,L,abs,2000,,TOWN,0\n")
    sends_wholly(page, survey, page.file("one.csv", sheet_of("q1,class,WIDTH,exclusive")), page.file("two.csv", sheet_of("q2,class,LANES,exclusive")))
    browser.shows("#sheet-said", f"{NOTHING} Not sent: one.csv, two.csv.")
    assert [row[:2] for row in page.rows("#lines")] == [["w2", "refused"]] and len(sent(page)) == 1
    browser.shows("#health", "166 edits.")


def test_a_sheet_that_is_broken_is_not_done_where_all_of_it_was_wanted(page):
    browser = page.browser
    page.opens()
    sends_wholly(page, page.file("roads.csv", sheet_of("q1,class,WIDTH,exclusive") + b"of one field\n"))
    browser.shows("#sheet-said", "Error: Nothing was done. The sheet could not be read to its end. The last line says why.")
    browser.shows("#health", "166 edits.")


def test_a_whole_sheet_whose_reply_is_lost_is_sent_again_as_a_whole(page):
    browser = page.browser
    page.opens()
    page.looks_at(page.file("roads.csv", sheet_of("q1,class,WIDTH,exclusive")))
    db = page.folder.parent / "roads.db"
    page.server.stop()
    browser.clicks("#all-or-none")
    browser.clicks("#send")
    browser.shows("#sheet-said", "Error: The program does not run. (Status 502.) It is not known how far the sheet was done. Go on with it")
    with started(db=db, port=page.server.port):
        browser.clicks("#resume")
        browser.shows("#sheet-said", "Nothing of it was refused.")
        assert page.rows("#lines") == [["q1", "done", "edit 167"]]
        assert [name.partition("?")[2] for name in sent(page)] == ["all=1", "all=1"]


def test_two_sheets_are_looked_at_and_sent_one_after_the_other(page):
    browser = page.browser
    page.opens()
    page.sends(page.file("one.csv", sheet_of("q1,class,WIDTH,exclusive")), page.file("two.csv", sheet_of("q2,class,LANES,exclusive")))
    browser.shows("#sheet-said", "two.csv was sent to its end")
    assert page.rows("#lines") == [["q2", "done", "edit 168"]]
    browser.shows("#totals", "WIDTH")


def test_a_survey_is_dropped_and_drawn(page):
    browser = page.browser
    page.opens_route("A1")
    survey = SURVEY_HEADER + b"w1,30,SIGN,A1,L,abs,1000,,TOWN,0\n"
    browser.runs(DROP, "survey.csv", survey.decode())
    browser.shows("#looked", "survey.csv: a survey of 1 record")
    browser.clicks("#send")
    browser.shows("#sheet-said", "survey.csv was sent to its end")
    assert page.rows("#lines") == [["w1", "done", "edit 167"]]
    browser.waits_for("TOWN", lambda browser: "30: TOWN" in browser.runs("return document.querySelector('#diagram').textContent"))
    page.pictured("a_survey")


def test_a_long_sheet_goes_in_parts(page):
    browser = page.browser
    page.opens()
    rows = [b'"w%d",link,%d,5,,,,,,,\r\n' % (n, 100 + n) for n in range(50_000)]
    page.looks_at(page.file("long.csv", b"\xef\xbb\xbf" + HEADER + b"".join(rows)))
    browser.shows("#looked", "long.csv: an edit sheet of 50000 records, ")
    browser.shows("#looked", " bytes, in 2 parts, so not all or nothing. It begins:")
    assert browser.runs("return document.querySelector('#all-or-none').disabled")
    browser.clicks("#send")
    browser.shows("#sheet-said", "long.csv was sent to its end, in 2 parts.")
    assert browser.text("#counts").startswith("50000 done, 0 again, 0 refused. 49500 lines more are not shown here")
    assert page.rows("#lines")[-1] == ["w499", "done", "edit 666"]
    # the same again: its parts are as before, and each record is known
    page.sends(page.file("long.csv", HEADER + b"".join(rows) + b"of one field\r\n" + rows[0]))
    browser.shows("#sheet-said", "Error: The sheet could not be read to its end.")
    assert browser.text("#counts").startswith("0 done, 50000 again, 0 refused, 1 fault.")
    assert page.rows("#lines")[-1] == ["-", "fault", "BadCsv: a record has not as many fields as the header"]
    page.pictured("a_fault")


def test_a_part_that_is_not_done_is_the_last(page):
    browser = page.browser
    page.opens()
    rows = [b"w%d,link,%d,5,,,,,,,\n" % (n, 100 + n) for n in range(100_000)]
    rows[20_000] = b"of one field\n"
    page.sends(page.file("long.csv", HEADER + b"".join(rows)))
    browser.shows("#sheet-said", "Error: The sheet could not be read to its end.")
    assert browser.text("#counts").startswith("20000 done, 0 again, 0 refused, 1 fault.")
    assert posted(page.port, "edits", HEADER + rows[-1]) == (200, b"w99999,done,20167\n")


def test_a_line_end_inside_quotes_is_no_end_of_a_record(page):
    browser = page.browser
    page.opens()
    rows = [b'w%d,link,%d,5,"a ""b"",\r\n c",,,,,,\r\n' % (n, n + 1) for n in range(40_000)]
    page.looks_at(page.file("long.csv", HEADER + b"".join(rows)))
    browser.shows("#looked", "an edit sheet of 40000 records")
    browser.clicks("#send")
    browser.shows("#sheet-said", "long.csv was sent to its end, in 2 parts.")
    browser.shows("#counts", "0 done, 0 again, 40000 refused. 39000 lines more are not shown here")
    assert page.rows("#lines")[0] == ["w0", "refused", "Malformed:c: c cannot be read, or a number in it is too large or too fine"]


def test_a_file_that_is_no_sheet_is_not_sent(page):
    browser = page.browser
    page.opens()
    for name, content in [("none.csv", b"key,value\nk1,5\n"), ("blob.bin", bytes(range(256)) * 40)]:
        page.looks_at(page.file(name, content))
        browser.shows("#sheet-said", f"Error: {name} is no edit sheet and no survey")
        assert browser.runs("return document.querySelector('#preview').hidden")
    assert sent(page) == []


def test_what_the_disk_does_not_take_is_told_and_gone_on_with(browser, tmp_path):
    db = tmp_path / "roads.db"
    ends(edit(db, FIRST), FIRST_REPLIES, 0)
    sheet, _ = long_sheet(30_000)
    with service(browser, tmp_path, **with_files_up_to(400_000)) as page:
        page.opens()
        page.sends(page.file("long.csv", sheet))
        browser.shows("#sheet-said", "Error: The program has too little memory, or could not write to its disk.")
        assert "(Status 503.) It is not known how far the sheet was done. Go on with it" in browser.text("#sheet-said")
        browser.shows("#health", "Error: The program has too little memory, or could not write to its disk.")
        page.pictured("a_full_disk")
        page.server.stop()
        # while no program runs it is told again
        browser.clicks("#resume")
        browser.shows("#sheet-said", "Error: The program does not run. (Status 502.) It is not known how far the sheet was done.")
        with started(db=db, port=page.server.port):
            browser.clicks("#resume")
            browser.shows("#sheet-said", "long.csv was sent to its end, in one part.")
            assert browser.runs("return document.querySelector('#resume').hidden")
            done, again, refused, *_ = (int(word) for word in re.findall(r"\d+", browser.text("#counts")))
            # what was decided before has no line: the first three links were known
            assert 0 < done < 29_997 and (again, refused) == (0, 0)
            status, lines = posted(page.port, "edits", sheet)
            assert status == 200 and (lines.count(b",again,"), lines.count(b",refused,LinkKnown")) == (29_997, 3)


def test_a_program_that_has_ended_is_told(page):
    browser = page.browser
    page.opens_route("A1")
    page.server.stop()
    browser.clicks("#in")
    browser.shows("#route-said", "Error: The program does not run. (Status 502.)")
    page.sends(page.file("roads.csv", FIRST))
    browser.shows("#sheet-said", "Error: The program does not run. (Status 502.) It is not known how far the sheet was done.")
    browser.shows("#health", "Error: The program does not run. (Status 502.)")
    page.pictured("no_program")
