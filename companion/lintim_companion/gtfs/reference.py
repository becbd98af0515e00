"""The files and fields of a feed as data, after the GTFS Schedule reference
(https://gtfs.org/documentation/schedule/reference/).

A file has a primary key and fields; a field has a kind, and `must` where each row has it. What is
needed under a condition stands in `conditions`. Kinds are those of `cells`, and `ref:FILE.FIELD`
for the id of something in another file; of several files one has to have it.
"""

from dataclasses import dataclass


@dataclass(frozen=True)
class Field:
    """A field of a file: its kind, and whether each row has to have it."""

    name: str
    kind: str
    must: bool = False

    @property
    def refers_to(self) -> tuple[str, ...]:
        """The fields of which one has to have this id, as `stops.txt.stop_id`."""
        return tuple(self.kind[4:].split("|")) if self.kind.startswith("ref:") else ()


@dataclass(frozen=True)
class Sheet:
    """A file of a feed: the fields that together name a row, and all fields."""

    name: str
    key: tuple[str, ...]
    fields: dict[str, Field]
    must: bool = False


def _sheet(name: str, key: str, fields: str, must: bool = False) -> tuple[str, Sheet]:
    """A file from lines of `name kind [must]`."""
    found = {}
    for line in fields.strip().splitlines():
        title, kind, *more = line.split()
        found[title] = Field(title, kind, "must" in more)
    return name, Sheet(name, tuple(key.split()), found, must)


SERVICE = "ref:calendar.txt.service_id|calendar_dates.txt.service_id"
STOP = "ref:stops.txt.stop_id"
ROUTE = "ref:routes.txt.route_id"
TRIP = "ref:trips.txt.trip_id"
AGENCY = "ref:agency.txt.agency_id"
LEVEL = "ref:levels.txt.level_id"

SHEETS: dict[str, Sheet] = dict(
    (
        _sheet(
            "agency.txt",
            "agency_id",
            """
            agency_id id
            agency_name text must
            agency_url url must
            agency_timezone zone must
            agency_lang language
            agency_phone text
            agency_fare_url url
            agency_email email
            cemv_support enum:0-2
            """,
            must=True,
        ),
        _sheet(
            "levels.txt",
            "level_id",
            """
            level_id id must
            level_index number must
            level_name text
            """,
        ),
        _sheet(
            "stops.txt",
            "stop_id",
            f"""
            stop_id id must
            stop_code text
            stop_name text
            tts_stop_name text
            stop_desc text
            stop_lat latitude
            stop_lon longitude
            zone_id id
            stop_url url
            location_type enum:0-4
            parent_station {STOP}
            stop_timezone zone
            wheelchair_boarding enum:0-2
            level_id {LEVEL}
            platform_code text
            stop_access enum:0-1
            """,
            must=True,
        ),
        _sheet(
            "routes.txt",
            "route_id",
            f"""
            route_id id must
            agency_id {AGENCY}
            route_short_name text
            route_long_name text
            route_desc text
            route_type route_type must
            route_url url
            route_color color
            route_text_color color
            route_sort_order whole
            continuous_pickup enum:0-3
            continuous_drop_off enum:0-3
            network_id id
            cemv_support enum:0-2
            """,
            must=True,
        ),
        _sheet(
            "calendar.txt",
            "service_id",
            """
            service_id id must
            monday enum:0-1 must
            tuesday enum:0-1 must
            wednesday enum:0-1 must
            thursday enum:0-1 must
            friday enum:0-1 must
            saturday enum:0-1 must
            sunday enum:0-1 must
            start_date date must
            end_date date must
            """,
        ),
        _sheet(
            "calendar_dates.txt",
            "service_id date",
            """
            service_id id must
            date date must
            exception_type enum:1-2 must
            """,
        ),
        _sheet(
            "shapes.txt",
            "shape_id shape_pt_sequence",
            """
            shape_id id must
            shape_pt_lat latitude must
            shape_pt_lon longitude must
            shape_pt_sequence whole must
            shape_dist_traveled size
            """,
        ),
        _sheet(
            "trips.txt",
            "trip_id",
            f"""
            route_id {ROUTE} must
            service_id {SERVICE} must
            trip_id id must
            trip_headsign text
            trip_short_name text
            direction_id enum:0-1
            block_id id
            shape_id ref:shapes.txt.shape_id
            wheelchair_accessible enum:0-2
            bikes_allowed enum:0-2
            cars_allowed enum:0-2
            safe_duration_factor number
            safe_duration_offset number
            """,
            must=True,
        ),
        _sheet(
            "stop_times.txt",
            "trip_id stop_sequence",
            f"""
            trip_id {TRIP} must
            arrival_time time
            departure_time time
            stop_id {STOP}
            location_group_id id
            location_id id
            stop_sequence whole must
            stop_headsign text
            start_pickup_drop_off_window time
            end_pickup_drop_off_window time
            pickup_type enum:0-3
            drop_off_type enum:0-3
            continuous_pickup enum:0-3
            continuous_drop_off enum:0-3
            shape_dist_traveled size
            timepoint enum:0-1
            pickup_booking_rule_id id
            drop_off_booking_rule_id id
            """,
            must=True,
        ),
        _sheet(
            "frequencies.txt",
            "trip_id start_time",
            f"""
            trip_id {TRIP} must
            start_time time must
            end_time time must
            headway_secs count must
            exact_times enum:0-1
            """,
        ),
        _sheet(
            "transfers.txt",
            "from_stop_id to_stop_id from_trip_id to_trip_id from_route_id to_route_id",
            f"""
            from_stop_id {STOP}
            to_stop_id {STOP}
            from_route_id {ROUTE}
            to_route_id {ROUTE}
            from_trip_id {TRIP}
            to_trip_id {TRIP}
            transfer_type enum:0-5
            min_transfer_time whole
            """,
        ),
        _sheet(
            "pathways.txt",
            "pathway_id",
            f"""
            pathway_id id must
            from_stop_id {STOP} must
            to_stop_id {STOP} must
            pathway_mode enum:1-7 must
            is_bidirectional enum:0-1 must
            length size
            traversal_time count
            stair_count number
            max_slope number
            min_width size
            signposted_as text
            reversed_signposted_as text
            """,
        ),
        _sheet(
            "fare_attributes.txt",
            "fare_id",
            f"""
            fare_id id must
            price size must
            currency_type currency must
            payment_method enum:0-1 must
            transfers enum:0-2
            agency_id {AGENCY}
            transfer_duration whole
            """,
        ),
        _sheet(
            "fare_rules.txt",
            "fare_id route_id origin_id destination_id contains_id",
            f"""
            fare_id ref:fare_attributes.txt.fare_id must
            route_id {ROUTE}
            origin_id ref:stops.txt.zone_id
            destination_id ref:stops.txt.zone_id
            contains_id ref:stops.txt.zone_id
            """,
        ),
        _sheet(
            "feed_info.txt",
            "",
            """
            feed_publisher_name text must
            feed_publisher_url url must
            feed_lang language must
            default_lang language
            feed_start_date date
            feed_end_date date
            feed_version text
            feed_contact_email email
            feed_contact_url url
            """,
        ),
        _sheet(
            "attributions.txt",
            "attribution_id",
            f"""
            attribution_id id
            agency_id {AGENCY}
            route_id {ROUTE}
            trip_id {TRIP}
            organization_name text must
            is_producer enum:0-1
            is_operator enum:0-1
            is_authority enum:0-1
            attribution_url url
            attribution_email email
            attribution_phone text
            """,
        ),
    )
)

# Files of the reference that are known by their names, and not looked into.
KNOWN = frozenset(
    "translations.txt areas.txt stop_areas.txt networks.txt route_networks.txt timeframes.txt "
    "rider_categories.txt fare_media.txt fare_products.txt fare_leg_rules.txt "
    "fare_leg_join_rules.txt fare_transfer_rules.txt location_groups.txt "
    "location_group_stops.txt booking_rules.txt locations.geojson".split()
)
