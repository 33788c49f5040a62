"""The browser in which the page is tried: the one that TELGOVAN_BROWSER names, else the first that is there."""

import os

import browser
import firefox

KNOWN = {"chromium": browser, "firefox": firefox}


def there():
    """The names of the browsers that are there."""
    return [name for name, driver in KNOWN.items() if driver.program()]


def chosen():
    """The name of the browser, or nothing where it isn't there."""
    named = os.environ.get("TELGOVAN_BROWSER", "")
    return next((name for name in there() if name == named or not named), None)


def opened():
    return KNOWN[chosen()].Browser()


if __name__ == "__main__":
    print(*there())
