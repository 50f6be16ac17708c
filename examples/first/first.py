"""Three members deliver a message. The coordinator of round 1 proposes too early once, which is refused."""
from malletochre import Choose, Receive, Refused, Set, Submit, World

with World(3) as world:

    def turn(member):
        """The member's next step, or a receipt; whether it moved."""
        step, serials = world.next(member), world.serials(member)
        if step is None or step.name == "suspect":
            step = Receive(member, serials[0]) if serials else None
        if step is not None:
            world.apply(step)
        return step is not None

    world.apply(Submit(1, Set(0, 7)))
    for _ in range(3):
        turn(2)   # receives, begins, enters round 1, which it coordinates
    try:
        world.apply(Choose(2, 2))
    except Refused as refused:
        print("refused", refused.refusal)
    while any([turn(member) for member in (1, 2, 3)]):
        pass
    for member in (1, 2, 3):
        print("member", member, "delivered", *world.delivered(member), "register 0 is", world.table(member)[0])
