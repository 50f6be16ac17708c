// Three members deliver a message. The coordinator of round 1 proposes too early once, which is refused.
package main

import (
	"fmt"

	. "malletochre"
)

// must gives what has no error.
func must[T any](value T, err error) T {
	if err != nil {
		panic(err)
	}
	return value
}

// turn does the member's next step, or a receipt, and tells whether it moved.
func turn(world *World, member uint8) bool {
	step, serials := must(world.Next(member)), must(world.Waiting(member))
	if step.Kind == 0 || step.Kind == Suspect {
		if len(serials) == 0 {
			return false
		}
		step = Step{Kind: Receive, Member: member, Serial: serials[0]}
	}
	_, _, err := world.Apply(step)
	return must(true, err)
}

func main() {
	world := must(Open(3, 64, MaxBound))
	defer world.Close()
	_, _, err := world.Apply(Step{Kind: Submit, Member: 1, Command: Command{Kind: Set, Value: 7}})
	must(0, err)
	for i := 0; i < 3; i++ {
		turn(world, 2) // receives, begins, enters round 1, which it coordinates
	}
	_, _, err = world.Apply(Step{Kind: Choose, Member: 2, From: 2})
	fmt.Println("refused", err)
	for moved := true; moved; {
		moved = false
		for member := uint8(1); member <= 3; member++ {
			moved = turn(world, member) || moved
		}
	}
	for member := uint8(1); member <= 3; member++ {
		fmt.Printf("member %d delivered", member)
		for _, it := range must(world.Delivered(member)) {
			fmt.Print(" ", it)
		}
		fmt.Println(" register 0 is", must(world.Table(member))[0])
	}
}
