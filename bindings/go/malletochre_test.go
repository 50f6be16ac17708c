package malletochre

import (
	"bufio"
	"errors"
	"fmt"
	"io"
	"math/rand"
	"os"
	"reflect"
	"strings"
	"testing"
	"time"
)

// A tiny replica: it keeps a table of registers by the commands of what it delivers.
type replica struct{ table [Registers]uint64 }

func (r *replica) execute(it Command) {
	switch it.Kind {
	case Set:
		r.table[it.Register] = it.Value
	case Add:
		if sum := r.table[it.Register] + it.Value; sum >= it.Value {
			r.table[it.Register] = sum
		} else {
			r.table[it.Register] = ^uint64(0)
		}
	case Copy:
		r.table[it.Value] = r.table[it.Register]
	}
}

func do(t *testing.T, world *World, step Step) {
	t.Helper()
	if _, _, err := world.Apply(step); err != nil {
		t.Fatalf("%v: %v", step, err)
	}
}

// A turn of a member, drawn at random.
func turn(t *testing.T, world *World, chance *rand.Rand, member uint8) {
	if chance.Intn(20) == 0 {
		command := Command{CommandKind(chance.Intn(3) + 1), uint8(chance.Intn(16)), uint64(chance.Intn(16))}
		do(t, world, Step{Kind: Submit, Member: member, Command: command})
	}
	step, err := world.Next(member)
	if err != nil {
		t.Fatal(err)
	}
	waiting, _ := world.Waiting(member)
	if step.Kind != 0 && step.Kind != Suspect && (len(waiting) == 0 || chance.Intn(2) == 0) {
		do(t, world, step)
	} else if len(waiting) > 0 {
		do(t, world, Step{Kind: Receive, Member: member, Serial: waiting[chance.Intn(len(waiting))]})
	}
}

// Whatever the schedule, the replica of each member has the table that the world says.
func TestReplicasOnRandomSchedules(t *testing.T) {
	most := 0
	for seed := int64(0); seed < 20; seed++ {
		world, err := Open(3, MaxCells, MaxBound)
		if err != nil {
			t.Fatal(err)
		}
		chance := rand.New(rand.NewSource(seed))
		for i := 0; i < 2000; i++ {
			turn(t, world, chance, uint8(chance.Intn(3)+1))
		}
		for member := uint8(1); member <= 3; member++ {
			delivered, _ := world.Delivered(member)
			var it replica
			for _, message := range delivered {
				it.execute(message.Command)
			}
			if table, _ := world.Table(member); table != it.table {
				t.Fatalf("seed %d, member %d: %v, there is %v", seed, member, it.table, table)
			}
			if len(delivered) > most {
				most = len(delivered)
			}
		}
		world.Close()
	}
	if most < 50 {
		t.Fatalf("only %d delivered", most)
	}
}

// Member 2 coordinates round 1, and hears itself.
func TestStanding(t *testing.T) {
	world, err := Open(3, 4, MaxBound)
	if err != nil {
		t.Fatal(err)
	}
	defer world.Close()
	stands := func(wanted Standing) {
		t.Helper()
		if standing, err := world.Standing(2); err != nil || !reflect.DeepEqual(standing, wanted) {
			t.Fatalf("%+v %v, not %+v", standing, err, wanted)
		}
	}
	none := Standing{Heard: map[uint8]uint32{}, Acked: []uint8{}, Replied: []uint8{}}
	stands(none)
	do(t, world, Step{Kind: Submit, Member: 2, Command: Command{Kind: Set, Value: 7}})
	do(t, world, Step{Kind: Receive, Member: 2, Serial: 2})
	do(t, world, Step{Kind: Begin, Member: 2})
	begun := none
	begun.Instance, begun.Phase = 1, Rest
	stands(begun)
	estimate, _, err := world.Apply(Step{Kind: Enter, Member: 2})
	if err != nil {
		t.Fatal(err)
	}
	do(t, world, Step{Kind: Receive, Member: 2, Serial: estimate})
	heard := begun
	heard.Round, heard.Phase, heard.Heard = 1, Gather, map[uint8]uint32{2: 0}
	stands(heard)
	if _, err := world.Standing(4); err != NoSuchMember {
		t.Fatal(err)
	}
}

// asked has that walks are those of ct_tool.
func TestWalk(t *testing.T) {
	options := UsualWalk(1, 7)
	options.Turns, options.Submit, options.Every = 1, 1, 1
	walk, err := OpenWalk(options)
	if err != nil {
		t.Fatal(err)
	}
	world, err := Open(3, 4, MaxBound)
	if err != nil {
		t.Fatal(err)
	}
	first := Turn{TurnStep, Step{Kind: Submit, Member: 1, Command: Command{Kind: Add, Value: 1}}}
	if turn, err := walk.Turn(world); err != nil || turn != first {
		t.Fatal(turn, err)
	}
	if _, err := walk.Turn(world); err != nil {
		t.Fatal(err)
	}
	if turn, err := walk.Turn(world); err != nil || turn.Kind != TurnOver {
		t.Fatal(turn, err)
	}
	world.Close()
	if _, err := walk.Turn(world); err != NotOpen {
		t.Fatal(err)
	}
	walk.Close()
	walk.Close()
	if _, err := walk.Turn(world); err != NotOpen {
		t.Fatal(err)
	}
	options.Crash = 2
	if _, err := OpenWalk(options); err != BadOptions {
		t.Fatal(err)
	}
}

// The first trial leaves the crash alone; asked has that what is left is what ct_tool leaves.
func TestShrunk(t *testing.T) {
	world, err := Open(3, 4, MaxBound)
	if err != nil {
		t.Fatal(err)
	}
	do(t, world, Step{Kind: Submit, Member: 1, Command: Command{Kind: Set, Value: 7}})
	do(t, world, Step{Kind: Crash, Member: 2})
	hasCrashed := func(world *World) bool {
		crashed, err := world.HasCrashed(2)
		return crashed && err == nil
	}
	for trials, wanted := range []int{2, 1, 1, 1} {
		least, err := Shrunk(world, true, uint32(trials), hasCrashed)
		if err != nil {
			t.Fatal(err)
		}
		if steps, err := least.Steps(); err != nil || len(steps) != wanted || steps[wanted-1].Kind != Crash {
			t.Fatal(steps, err)
		}
		least.Close()
	}
	shrinker, err := OpenShrinker(world, true, 10)
	if err != nil {
		t.Fatal(err)
	}
	if err := shrinker.Told(world, true); err != NoTrial || shrinker.IsLeast() {
		t.Fatal(err)
	}
	for i := 0; i < 2; i++ {
		if err := shrinker.Next(); err != nil {
			t.Fatal(err)
		}
		if step, err := shrinker.Turn(world); err != nil || step.Kind != 0 {
			t.Fatal(step, err)
		}
	}
	copied := *shrinker
	world.Close()
	closed := func(it *Shrinker) {
		_, turn := it.Turn(world)
		_, open := OpenShrinker(world, true, 10)
		_, shrunk := Shrunk(world, true, 10, hasCrashed)
		for i, err := range []error{turn, it.Told(world, true), open, shrunk} {
			if err != NotOpen {
				t.Fatal(i, err)
			}
		}
	}
	closed(shrinker)
	shrinker.Close()
	shrinker.Close()
	for _, it := range []*Shrinker{shrinker, &copied, {}, nil} {
		closed(it)
		if err := it.Next(); err != NotOpen || it.IsLeast() {
			t.Fatal(err)
		}
	}
}

func TestWrongUses(t *testing.T) {
	if _, err := Open(17, 4, MaxBound); err != BadSetup {
		t.Fatal(err)
	}
	world, err := Open(3, 4, MaxBound)
	if err != nil {
		t.Fatal(err)
	}
	if _, _, err := world.Apply(Step{Kind: Begin, Member: 1}); !errors.Is(err, Nothing) || err.Error() != "Nothing" {
		t.Fatal(err)
	}
	if _, _, err := world.Apply(Step{Kind: 99, Member: 1}); err != BadStep {
		t.Fatal(err)
	}
	copied := *world
	world.Close()
	world.Close()
	for _, it := range []*World{world, &copied, {}, nil} {
		if err := asked(it); err != nil {
			t.Fatal(err)
		}
	}
	for _, record := range []string{"", "{}", "[]", `{"batch":1,"cells":0,"n":1,"steps":[],"version":2}`,
		`{"batch":1,"cells":0,"n":1.0,"steps":[],"version":3}`, `{"batch":1,"cells":0,"n":1,"steps":[["begin",null]],"version":3}`,
		`{"batch":1,"cells":0,"n":1,"steps":[["settle",1]],"version":3}`, `{"batch":1,"cells":0,"n":1,"steps":[["crash",1,2]],"version":3}`,
		`{"batch":1,"cells":0,"n":1,"steps":[["crash",1],["begin",1]],"version":3}`, `{"batch":1,"cells":0,"n":1,"version":3,"x":[]}`} {
		if _, err := OpenRecord([]byte(record)); err == nil {
			t.Fatal(record)
		} else if strings.Contains(record, "begin\",1") && !errors.Is(err, Crashed) {
			t.Fatal(err)
		}
	}
}

// Each call on a world that isn't open is refused.
func asked(world *World) error {
	_, _, apply := world.Apply(Step{Kind: Crash, Member: 1})
	_, crashed := world.HasCrashed(1)
	_, next := world.Next(1)
	_, standing := world.Standing(1)
	_, envelope := world.Envelope(1)
	_, steps := world.Steps()
	_, value := world.Value(1)
	_, waiting := world.Waiting(1)
	_, received := world.Received(1)
	_, decided := world.Decided(1, 1)
	_, delivered := world.Delivered(1)
	_, table := world.Table(1)
	_, record := world.Record()
	_, other := world.Copy()
	for i, err := range []error{apply, world.Enabled(Step{Kind: Crash, Member: 1}), crashed, next, standing, envelope, steps, value, waiting,
		received, decided, delivered, table, record, other} {
		if err != NotOpen {
			return fmt.Errorf("call %d: %v", i, err)
		}
	}
	return nil
}

func TestSession(t *testing.T) {
	session, err := OpenSession()
	if err != nil {
		t.Fatal(err)
	}
	for _, it := range [][2]string{{"", ""}, {"members 3\n1 sub", "ok\n"}, {"mit set 0 7\nnext 2\n", "ok 1-3\nnext 2 receive data 1.1 from 1\n"}} {
		if answers, err := session.TellBytes([]byte(it[0])); string(answers) != it[1] || err != nil {
			t.Fatal(string(answers), err)
		}
	}
	var refused LineRefused
	if _, _, err := session.Tell("2 begin "); !errors.As(err, &refused) || refused.Number != 4 || refused.Line != "2 begin" {
		t.Fatal(err)
	}
	copied := *session
	session.Close()
	session.Close()
	for _, it := range []*Session{session, &copied, {}, nil} {
		_, _, tell := it.Tell("")
		_, ask := it.Ask("")
		_, bytes := it.TellBytes(nil)
		_, record := it.Record()
		_, diagram := it.Diagram()
		for i, err := range []error{tell, ask, bytes, record, diagram} {
			if err != NotOpen {
				t.Fatal(i, err)
			}
		}
	}
}

// The steps that are read, five numbers each.
func stepsIn(in io.Reader) (steps []Step) {
	for {
		var n [5]uint64
		if _, err := fmt.Fscan(in, &n[0], &n[1], &n[2], &n[3], &n[4]); err != nil {
			return steps
		}
		step := Step{Kind: Kind(n[0]), Member: uint8(n[1])}
		switch step.Kind {
		case Submit:
			step.Command = Command{CommandKind(n[2]), uint8(n[3]), n[4]}
		case Choose:
			step.From = uint8(n[2])
		default:
			step.Serial = uint32(n[2])
		}
		steps = append(steps, step)
	}
}

// The steps of the file that CT_STEPS names, as bindings/tests/inputs.py writes them, by typed calls: how many a second.
func TestSteps(t *testing.T) {
	file, err := os.Open(os.Getenv("CT_STEPS"))
	if err != nil {
		t.Skip("CT_STEPS names no file")
	}
	defer file.Close()
	in := bufio.NewReader(file)
	var members uint8
	var cells uint16
	var bound uint32
	fmt.Fscan(in, &members, &cells, &bound)
	steps := stepsIn(in)
	world, err := Open(members, cells, bound)
	if err != nil {
		t.Fatal(err)
	}
	defer world.Close()
	start := time.Now()
	for _, step := range steps {
		do(t, world, step)
	}
	took := time.Since(start).Seconds()
	fmt.Fprintf(os.Stderr, "Go: %d steps, %.3f s, %.0f steps/s\n", len(steps), took, float64(len(steps))/took)
	if told, _ := world.Steps(); len(told) != len(steps) || told[len(told)-1] != steps[len(steps)-1] {
		t.Fatal("another record")
	}
}
