"""What a driver may ask of a request besides the rules: facts that tools/conform tells of a request which a kernel answered otherwise."""
import struct

import states


def size(request, crtc):
    """The size of a CRTC's mode behind a request, or none."""
    mode = request.mode(crtc, request.new)
    return struct.unpack_from("<4xH8xH", mode) if mode else None


def covers(values, screen):
    """Whether a plane covers its screen."""
    at = [(values[f"CRTC_{axis}"], values[f"CRTC_{axis}"] + values[f"CRTC_{side}"]) for axis, side in ("XW", "YH")]
    return all(begin <= 0 and whole <= end for (begin, end), whole in zip(at, screen))


def of_plane(request, plane):
    """What there is to say of a plane."""
    values = request.new[plane]
    crtc, index = values["CRTC_ID"], int(plane.removeprefix("plane"))
    if crtc not in request.new or not values["FB_ID"]:
        return []
    screen, is_primary = size(request, crtc), request.device.script.planes[index].type == "primary"
    if not screen:
        return [f"{plane} is on {crtc} without a mode"]
    facts = []
    if is_primary and not covers(values, screen):
        facts.append(f"{plane} is primary and does not cover {crtc}")
    if any(values[f"SRC_{axis}"] % 65536 for axis in "XY"):
        facts.append(f"{plane} has a fraction in its source")
    return facts


def of_request(device, command):
    """Facts about a command, behind the states of a device; none where it is no request."""
    if command.words[0] != "atomic":
        return []
    request = states.Request(device, command)
    return [fact for plane in device.objects("plane") for fact in of_plane(request, plane)]
