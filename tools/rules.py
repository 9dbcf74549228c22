"""Why a rule refuses a command: what breaks it, and what would be accepted.

`why(number, ...)` gives for a rule of the manual the assignments that break it, if it speaks of any, and words on what would be
accepted; or none, where the rule does not refuse the command. Of 25, 26 and 31 to 35 it does not look at whether they do.
`reasons` tells it in lines.
"""
import states

ONE = 65536  # a pixel of a source
LAST_EARLY = 8  # the last rule that refuses a request by its flags and assignments alone
FARTHEST = 2147483647
KNOWN = sum(states.FLAGS.values())


def listed(names):
    return ", ".join(map(str, names))


def without(request, *names):
    return hex(request.flags & ~sum(states.FLAGS[name] for name in names))


# Flags


def unknown_flag(request):
    if request.flags & ~KNOWN:
        return [], f"flags without {request.flags & ~KNOWN:#x}: {request.flags & KNOWN:#x}"


def async_flip(request):
    if request.has("PAGE_FLIP_ASYNC"):
        return [], f"flags without 0x2: {without(request, 'PAGE_FLIP_ASYNC')}"


def test_with_event(request):
    if request.has("TEST_ONLY") and request.has("PAGE_FLIP_EVENT"):
        return [], f"a test, {without(request, 'PAGE_FLIP_EVENT')}, or a commit with an event, {without(request, 'TEST_ONLY')}"


# Assignments, one by one


def first(request, breaks, accepted):
    for it in request.assignments:
        if breaks(it):
            return [it], accepted(it)


def is_there(request, it):
    return it.index < request.device.counts[it.kind]


def has_property(request, it):
    return is_there(request, it) and it.property in states.names_of(it.kind, request.device.script.profile)


def no_object(request):
    counts = request.device.counts
    return first(request, lambda it: not is_there(request, it), lambda it: f"{it.kind}0 to {it.kind}{counts[it.kind] - 1}")


def no_property(request):
    names = lambda it: states.names_of(it.kind, request.device.script.profile)
    return first(
        request,
        lambda it: is_there(request, it) and not has_property(request, it),
        lambda it: f"of {it.object}: {listed(names(it)) or 'nothing'}",
    )


def immutable_property(request):
    return first(request, lambda it: it.property == "type", lambda it: f"nothing: {it.object} has the type that the script's line says")


def is_label_of(request, it):
    """Whether the word of a property that takes labels is one of a thing that it takes."""
    kinds = {"FB_ID": "framebuffer", "MODE_ID": "blob", "GAMMA_LUT": "blob", "IN_FENCE_FD": "fence"}
    thing = request.device.value(it.word)
    if not isinstance(thing, states.Thing):
        return thing == (-1 if it.property == "IN_FENCE_FD" else 0)
    sizes = {"MODE_ID": 68, "GAMMA_LUT": 2048}
    is_sized = it.property not in sizes or len(thing.content) == sizes[it.property]
    is_legal = it.property != "MODE_ID" or (is_sized and states.is_legal_mode(thing.content))
    return thing.kind.endswith(kinds[it.property]) and thing.is_open and is_sized and is_legal


def is_value(request, it):
    if it.property in ("FB_ID", "MODE_ID", "GAMMA_LUT", "IN_FENCE_FD"):
        return is_label_of(request, it)
    if it.property == "CRTC_ID":
        return it.word == "0" or it.word in request.device.objects("crtc")
    if it.property == "OUT_FENCE_PTR":
        return it.word == "0" or it.word.startswith("+")
    least, most = states.range_of(it.kind, it.property)
    value = request.device.value(it.word)
    return isinstance(value, int) and least <= value <= most


def state_of_label(request, it):
    """What is wrong with a label, as words behind what would be accepted."""
    thing = request.device.value(it.word)
    if isinstance(thing, states.Thing):
        is_bad_blob = thing.kind == "blob" and thing.is_open and it.property in ("MODE_ID", "GAMMA_LUT")
        return f" ({it.word} is a {thing.kind}{' that holds none' * is_bad_blob}{' that is closed' * (not thing.is_open)})"
    return f" (nothing is made as {it.word})" if it.word.startswith("@") else ""


def invalid_value(request):
    return first(
        request,
        lambda it: has_property(request, it) and it.property != "type" and not is_value(request, it),
        lambda it: f"{it.object}.{it.property}: {states.values_of(it.kind, it.property)}{state_of_label(request, it)}",
    )


def second_in_fence(request):
    seen = set()
    for it in request.assignments:
        if it.property == "IN_FENCE_FD":
            if it.object in seen:
                return [it], f"one IN_FENCE_FD for {it.object}"
            if it.word != "-1":
                seen.add(it.object)


def event_without_crtc(request):
    if request.has("PAGE_FLIP_EVENT") and not request.named():
        return [], "a property of a CRTC, or of a plane or connector that is on one, too; or flags without 0x1"


# Planes


def first_plane(request, breaks, names, accepted):
    """The first plane with a framebuffer and a CRTC of which something holds, with what the request set of it."""
    for plane in request.device.objects("plane"):
        new = request.new[plane]
        if new["CRTC_ID"] and new["FB_ID"] and breaks(plane, new):
            return request.setting(plane, *names), accepted(plane, new)


def line_of(request, object):
    """What the script says of a plane, or the possible CRTCs of a connector."""
    script, index = request.device.script, int(object.lstrip("planeco"))
    return script.planes[index] if object.startswith("plane") else script.connectors[index]


def possible(crtcs):
    return " or ".join(f"crtc{index}" for index in crtcs)


def framebuffer_xor_crtc(request):
    for plane in request.device.objects("plane"):
        new = request.new[plane]
        if bool(new["FB_ID"]) != bool(new["CRTC_ID"]):
            has, lacks = ("a framebuffer", "CRTC_ID") if new["FB_ID"] else ("a CRTC", "FB_ID")
            both = f"{plane} has {has}: {plane}.{lacks} too, or both FB_ID=0 and CRTC_ID=0"
            return request.setting(plane, "FB_ID", "CRTC_ID"), both


def crtc_not_possible(request):
    return first_plane(
        request,
        lambda plane, new: int(new["CRTC_ID"][4:]) not in line_of(request, plane).crtcs,
        ["CRTC_ID"],
        lambda plane, new: f"{plane}.CRTC_ID={possible(line_of(request, plane).crtcs)}",
    )


def format_not_supported(request):
    return first_plane(
        request,
        lambda plane, new: new["FB_ID"].format not in line_of(request, plane).formats,
        ["FB_ID"],
        lambda plane, new: f"a framebuffer of {listed(line_of(request, plane).formats)} (@{new['FB_ID'].label} has {new['FB_ID'].format})",
    )


def beyond(new, begin, size, end):
    return new[begin] + new[size] > end


def destination_too_far(request):
    axes = [("CRTC_X", "CRTC_W"), ("CRTC_Y", "CRTC_H")]
    return first_plane(
        request,
        lambda plane, new: any(beyond(new, *axis, FARTHEST) for axis in axes),
        ["CRTC_X", "CRTC_W", "CRTC_Y", "CRTC_H"],
        lambda plane, new: "; ".join(f"{plane}.{a} at most {FARTHEST - new[b]}" for a, b in axes if beyond(new, a, b, FARTHEST)),
    )


def source_outside(request):
    def too_far(new):
        """Where a source ends outside: its properties, and where it may end."""
        ends = {("SRC_X", "SRC_W"): new["FB_ID"].width * ONE, ("SRC_Y", "SRC_H"): new["FB_ID"].height * ONE}
        return [(*axis, end) for axis, end in ends.items() if beyond(new, *axis, end)]

    return first_plane(
        request,
        lambda plane, new: too_far(new),
        ["FB_ID", "SRC_X", "SRC_W", "SRC_Y", "SRC_H"],
        lambda plane, new: "; ".join(f"{plane}.{a} + {plane}.{b} at most {end} ({end // ONE} pixels)" for a, b, end in too_far(new)),
    )


def switches_crtc(request):
    before = lambda plane: request.old[plane]["CRTC_ID"]
    return first_plane(
        request,
        lambda plane, new: before(plane) not in (0, new["CRTC_ID"]),
        ["CRTC_ID"],
        lambda plane, new: f"the same after a request with {plane}.FB_ID=0 {plane}.CRTC_ID=0 ({plane} is on {before(plane)})",
    )


def crtc_not_enabled(request):
    return first_plane(
        request,
        lambda plane, new: not request.mode(new["CRTC_ID"], request.new),
        ["CRTC_ID"],
        lambda plane, new: f"a mode for {new['CRTC_ID']}, or {plane}.FB_ID=0 {plane}.CRTC_ID=0 beside",
    )


def is_scaled(profile, source, size):
    if profile == 1:
        return source != size * ONE
    return size * ONE > 4 * source or source > 4 * ONE * size


def scaled(request):
    profile = request.device.script.profile
    axes = [("SRC_W", "CRTC_W"), ("SRC_H", "CRTC_H")]

    def accepted(plane, source, size, new):
        if profile == 1:
            return f"{plane}.{source}={new[size] * ONE} ({new[size]} pixels)"
        return f"{plane}.{source} from {-(-new[size] * ONE // 4)} to {4 * ONE * new[size]}"

    return first_plane(
        request,
        lambda plane, new: any(is_scaled(profile, new[a], new[b]) for a, b in axes),
        ["SRC_W", "SRC_H", "CRTC_W", "CRTC_H"],
        lambda plane, new: "; ".join(accepted(plane, a, b, new) for a, b in axes if is_scaled(profile, new[a], new[b])),
    )


def fractional_source(request):
    names = ["SRC_X", "SRC_Y"]
    if request.device.script.profile == 1:
        return first_plane(
            request,
            lambda plane, new: any(new[name] % ONE for name in names),
            names,
            lambda plane, new: "; ".join(f"{plane}.{name}={new[name] // ONE * ONE}" for name in names if new[name] % ONE),
        )


# CRTCs and connectors


def first_crtc(request, breaks, found):
    for crtc in request.device.objects("crtc"):
        if breaks(crtc):
            return found(crtc)


def active_without_mode(request):
    return first_crtc(
        request,
        lambda crtc: request.new[crtc]["ACTIVE"] and not request.mode(crtc, request.new),
        lambda crtc: (request.setting(crtc, "ACTIVE", "MODE_ID"), f"{crtc}.MODE_ID of a mode, or {crtc}.ACTIVE=0"),
    )


def signal_while_off(request):
    def breaks(crtc):
        is_asked = request.has("PAGE_FLIP_EVENT") and crtc in request.named()
        has_fence = any(it.word.startswith("+") for it in request.setting(crtc, "OUT_FENCE_PTR"))
        return (is_asked or has_fence) and not request.old[crtc]["ACTIVE"] and not request.new[crtc]["ACTIVE"]

    def found(crtc):
        fences = [it for it in request.setting(crtc, "OUT_FENCE_PTR") if it.word.startswith("+")]
        return fences, f"{crtc}.ACTIVE=1 too, or neither flag 0x1 nor an OUT_FENCE_PTR: {crtc} is off"

    return first_crtc(request, breaks, found)


def connector_not_possible(request):
    for conn in request.device.objects("conn"):
        crtc = request.new[conn]["CRTC_ID"]
        if crtc and int(crtc[4:]) not in line_of(request, conn):
            return request.setting(conn, "CRTC_ID"), f"{conn}.CRTC_ID={possible(line_of(request, conn))}"


def of_connectors(request, crtc):
    sides = [request.connectors_on(crtc, side) for side in (request.old, request.new)]
    return [it for conn in dict.fromkeys(sum(sides, [])) for it in request.setting(conn, "CRTC_ID")]


def cloned_connectors(request):
    return first_crtc(
        request,
        lambda crtc: len(request.connectors_on(crtc, request.new)) > 1,
        lambda crtc: (of_connectors(request, crtc), f"CRTC_ID=0 for all but one of {listed(request.connectors_on(crtc, request.new))}"),
    )


def mode_xor_connector(request):
    def found(crtc):
        with_mode = f"a connector's CRTC_ID={crtc} too, or {crtc}.MODE_ID=0"
        accepted = with_mode if request.mode(crtc, request.new) else f"{crtc}.MODE_ID of a mode too, or no connector"
        return request.setting(crtc, "MODE_ID") + of_connectors(request, crtc), accepted

    is_broken = lambda crtc: bool(request.mode(crtc, request.new)) != bool(request.connectors_on(crtc, request.new))
    return first_crtc(request, is_broken, found)


def modeset_not_allowed(request):
    modesets = request.modesets()
    if modesets and not request.has("ALLOW_MODESET"):
        breaks = lambda crtc, names: request.setting(crtc, *names) + of_connectors(request, crtc) * ("CRTC_ID" in names)
        at = [it for crtc, names in modesets.items() for it in breaks(crtc, names)]
        return at, f"flags with 0x400: {request.flags | 0x400:#x} ({listed(modesets)} would need a modeset)"


# All in the order of their numbers


def no_event_space(request):
    if request.has("PAGE_FLIP_EVENT"):
        return [], f"the same once events are read by `wait`: it takes {32 * len(request.named())} bytes"


def busy(request):
    if request.has("NONBLOCK") and not request.has("TEST_ONLY"):
        return [], f"the same once that commit has flipped, or flags without 0x200: {without(request, 'NONBLOCK')}"


OF_REQUESTS = dict(enumerate([
    unknown_flag, async_flip, test_with_event, no_object, no_property, immutable_property, invalid_value, second_in_fence,
    event_without_crtc, framebuffer_xor_crtc, crtc_not_possible, format_not_supported, destination_too_far, source_outside,
    switches_crtc, active_without_mode, signal_while_off, connector_not_possible, cloned_connectors, mode_xor_connector,
    crtc_not_enabled, scaled, fractional_source, modeset_not_allowed, no_event_space, busy,
], 1))  # fmt: skip

OF_OTHERS = {
    31: ("buffer", f"sides from 1 to {states.MOST}"),
    32: ("buffer", "smaller buffers: all together have at most 268435456 bytes, and none is given back"),
    33: ("addfb closefb destroy", "a label of such a thing that is open"),
    34: ("destroy", "the same command of the client that made it"),
    35: ("signal", "a label of a `fence` command"),
}


def why(number, command, device):
    """The assignments that broke a rule, and what would be accepted; or none. A request that an early rule refuses has no late one."""
    if command.words[0] == "atomic":
        request = states.Request(device, command)
        is_early = number > LAST_EARLY and any(OF_REQUESTS[early](request) for early in range(1, LAST_EARLY + 1))
        return OF_REQUESTS[number](request) if number in OF_REQUESTS and not is_early else None
    commands, accepted = OF_OTHERS.get(number, ("", ""))
    return ([], accepted) if command.words[0] in commands.split() else None


def told(number, command, device, of_number):
    """The lines that tell of a rule and why it refuses a command."""
    rule = of_number[number]
    yield f"{number} {rule.name}: {rule.text}" + (f" ({rule.exactly})" if rule.exactly else "")
    found = why(number, command, device)
    if found:
        at, accepted = found
        if at:
            yield "broken by: " + " ".join(map(str, at))
        yield "accepted: " + accepted


def reasons(command, device, reply, of_number):
    """The lines that tell why a command was refused; of an errno alone, each rule of it that refuses the command."""
    numbers = [reply.refusal]
    if not reply.refusal:
        numbers = [number for number, rule in of_number.items() if rule.errno == reply.words[0] and why(number, command, device)]
    for number in numbers:
        yield from told(number, command, device, of_number)
    if not numbers:
        yield f"no rule with {reply.words[0]} refuses it"
