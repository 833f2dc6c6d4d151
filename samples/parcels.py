"""Records of a K file, field by field, for the scripts that make samples and judged records."""

# Name and width of each field, in the order of the record.
FIELDS = (
    ("identifier", 13),
    ("date", 8),
    ("time", 8),
    ("name", 30),
    ("postcode", 5),
    ("country", 2),
    ("municipality", 40),
    ("district", 40),
    ("street", 40),
    ("house", 6),
    ("orientation", 6),
    ("telephone", 20),
    ("mail", 50),
    ("charges", 12),
    ("weight", 6),
    ("cash", 12),
    ("price", 12),
    ("services", 30),
    ("status", 2),
    ("franking", 10),
    ("variable_symbol", 10),
    ("main", 13),
    ("serial", 2),
    ("pieces", 2),
    ("consignor", 10),
    ("symbol", 10),
)


def check_digit(digits):
    weights = (1, 8, 6, 4, 2, 3, 5, 9, 7)[-len(digits):]
    remainder = sum(weight * int(digit) for weight, digit in zip(weights, digits)) % 11
    return {0: 5, 1: 0}.get(remainder, 11 - remainder)


def identifier(number, prefix="BO", consignor="54", last="F"):
    """With the number in the digits that the consignor leaves of nine."""
    digits = consignor + str(number).zfill(9 - len(consignor))
    return f"{prefix}{digits}{check_digit(digits)}{last}"


def identifier_cz(number, prefix="EE"):
    digits = f"{number:08}"
    return f"{prefix}{digits}{check_digit(digits)}CZ"


def record(**values):
    """The 399 bytes; what is not given is blank, what is given stands at the left."""
    unknown = values.keys() - {name for name, _ in FIELDS}
    assert not unknown, unknown
    return b"".join(padded(values.get(name, ""), width) for name, width in FIELDS)


def padded(text, width):
    field = text.encode("cp852")
    assert len(field) <= width, text
    return field.ljust(width)


def parcel(number=1, **changes):
    """A good domestic parcel, save what is changed."""
    values = dict(
        identifier=identifier(number),
        date="20240229",
        time="08:30:00",
        name="Nováková Žofie",
        postcode="60200",
        municipality="Brno",
        district="Černá Pole",
        street="Příční",
        house="118",
        orientation="5",
        weight=" 2.350",
    )
    values.update(changes)
    return record(**values)


def on_delivery(number=1, **changes):
    values = dict(services="7+41", cash="1234.50", price="5000.00", variable_symbol="0000012345")
    values.update(changes)
    return parcel(number, **values)


def abroad(number=1, **changes):
    values = dict(
        identifier=identifier_cz(number),
        name="Löwe Jürgen",
        postcode="",
        country="AT",
        municipality="Wien",
        district="",
        street="Rennweg",
        services="42",
    )
    values.update(changes)
    return parcel(number, **values)


def piece(number, serial, main, **changes):
    values = dict(services="70", main=identifier(main), serial=f"{serial:02}", pieces="02")
    values.update(changes)
    return parcel(number, **values)
