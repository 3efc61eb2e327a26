"""Other tabs of the browser that a page is in."""
from __future__ import annotations

from typing import Any

from webpage.pages import ChromiumPage, Deeds


def tab_of(page: Deeds) -> Any:
    """The tab that the page is in."""
    if isinstance(page, ChromiumPage):
        return page.target, page.session
    return page.call("WebDriver:GetWindowHandle")["value"]


def turn(page: Deeds, tab: Any) -> None:
    """Turns to a tab, which the browser shows then."""
    if isinstance(page, ChromiumPage):
        page.target, page.session = tab
        page.call("Page.bringToFront")
    else:
        page.call("WebDriver:SwitchToWindow", handle=tab, focus=True)


def new_tab(page: Deeds) -> Any:
    """Opens a tab, empty, and turns to it."""
    if isinstance(page, ChromiumPage):
        page.session = None
        page.target = page.call("Target.createTarget", url="about:blank")["targetId"]
        page.attach()
        page.is_new = True
    else:
        page.call("WebDriver:SwitchToWindow", handle=page.call("WebDriver:NewWindow", type="tab")["handle"])
    return tab_of(page)


def close(page: Deeds, tab: Any) -> None:
    """Closes the tab that the page is in, as a person does, and turns to another one."""
    if isinstance(page, ChromiumPage):
        old, page.session = page.target, None
        page.call("Target.closeTarget", targetId=old)
    else:
        page.call("WebDriver:CloseWindow")
    turn(page, tab)
