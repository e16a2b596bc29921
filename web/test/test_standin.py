"""A whole year in the browser without Caddy: deploy/local's stand-in serves the page."""

import test_year
from door import DoorWithoutCaddy


class YearWithoutCaddy(test_year.YearByClicks):
    kind_of_door = DoorWithoutCaddy
