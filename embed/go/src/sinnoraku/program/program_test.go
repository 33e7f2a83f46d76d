package program

import (
	"errors"
	"fmt"
	"os"
	"path/filepath"
	"reflect"
	"strings"
	"sync"
	"sync/atomic"
	"testing"
	"time"

	"github.com/prometheus/common/model"
)

// programPath is the replay program that the tests run: SINNORAKU_PROGRAM, or the proved one of this checkout.
func programPath(t testing.TB) string {
	path := os.Getenv("SINNORAKU_PROGRAM")
	if path == "" {
		path = "../../../../../crates/am_replay/out/am_replay"
	}
	if _, err := os.Stat(path); err != nil {
		t.Skip("there is no replay program: ./replay --prove builds it, or SINNORAKU_PROGRAM names one")
	}
	return path
}

// A watched program counts what its listener is notified of.
type watched struct {
	*Program
	name           string // of each reader
	cuts, restarts atomic.Int64
	mutex          sync.Mutex
	gone           map[model.Fingerprint]int
}

func (w *watched) Gone(fingerprint model.Fingerprint) {
	w.mutex.Lock()
	defer w.mutex.Unlock()
	w.gone[fingerprint]++
}

func (w *watched) Cut(string)             { w.cuts.Add(1) }
func (w *watched) Unserved(string, error) {}
func (w *watched) Died(error)             { w.restarts.Add(1) }
func (w *watched) Ended(error)            {}

func (w *watched) timesGone(alert *Alert) int {
	w.mutex.Lock()
	defer w.mutex.Unlock()
	return w.gone[alert.Fingerprint()]
}

func (w *watched) Subscribe() *Iterator[Alert] {
	return Subscribe(w.Program, w.name, func(alert *Alert) *Alert { return alert })
}

// begun starts a program, and doesn't close it.
func begun(name string, options Options) (*watched, error) {
	w := &watched{name: name, gone: map[model.Fingerprint]int{}}
	var err error
	w.Program, err = Start(options, w, nil)
	return w, err
}

func startWith(t testing.TB, options Options) *watched {
	t.Helper()
	options.Program = programPath(t)
	w, err := begun(t.Name(), options)
	if err != nil {
		t.Fatal(err)
	}
	t.Cleanup(w.Close)
	return w
}

func startPlain(t testing.TB) *watched {
	return startWith(t, Options{})
}

func alertOf(labels model.LabelSet, from, to time.Time) *Alert {
	return &Alert{
		Alert:     model.Alert{Labels: labels, Annotations: model.LabelSet{}, StartsAt: from.UTC(), EndsAt: to.UTC()},
		UpdatedAt: from.UTC(),
	}
}

// firing is an alert of a number that fires for an hour.
func firing(number int) *Alert {
	now := time.Now().Round(0)
	return alertOf(model.LabelSet{"alertname": "Test", "n": model.LabelValue(fmt.Sprint(number))}, now, now.Add(time.Hour))
}

func firings(from, to int) (alerts []*Alert) {
	for number := from; number < to; number++ {
		alerts = append(alerts, firing(number))
	}
	return alerts
}

func put(t testing.TB, a *watched, alerts ...*Alert) {
	t.Helper()
	if err := a.Put(alerts...); err != nil {
		t.Fatal(err)
	}
}

// take takes that many alerts of an iterator, and fails if they don't come.
func take(t testing.TB, it *Iterator[Alert], count int) (alerts []*Alert) {
	t.Helper()
	late := time.After(30 * time.Second)
	for len(alerts) < count {
		select {
		case alert, isOpen := <-it.Next():
			if !isOpen {
				t.Fatalf("the iterator ended after %d of %d alerts: %v", len(alerts), count, it.Err())
			}
			alerts = append(alerts, alert)
		case <-late:
			t.Fatalf("%d of %d alerts came", len(alerts), count)
		}
	}
	return alerts
}

// takesNothing fails if another alert comes.
func takesNothing(t testing.TB, it *Iterator[Alert]) {
	t.Helper()
	select {
	case alert, isOpen := <-it.Next():
		t.Fatalf("%v came (the channel is open: %v)", alert, isOpen)
	case <-time.After(50 * time.Millisecond):
	}
}

func numbers(alerts []*Alert) (found []string) {
	for _, it := range alerts {
		found = append(found, string(it.Labels["n"]))
	}
	return found
}

func pending(t testing.TB, a *watched) []*Alert {
	t.Helper()
	alerts, err := a.Stored()
	if err != nil {
		t.Fatal(err)
	}
	return alerts
}

func TestEachAlertComesBackAsItWas(t *testing.T) {
	a := startPlain(t)
	now := time.Date(2024, 2, 29, 23, 59, 58, 7, time.FixedZone("", 3600))
	for name, labels := range map[string]model.LabelSet{
		"plain":        {"a": "b"},
		"quotes":       {"a": `"\/`, `"`: `\"`},
		"controls":     {"a": "\x00\x01\b\f\n\r\t\x1f\x7f", "\n": "\n"},
		"unicode":      {"ключ": "значение", "日本": "語", "a": "\u2028\u2029\ufeff", "b": "\U0001F600\U0010FFFF"},
		"long":         {"a": model.LabelValue(strings.Repeat("\x01x", 50_000))},
		"many":         manyLabels(40),
		"digits":       {"1": "2", "-": "null", "true": "false"},
		"values alike": {"a": `{"labels":{}}`, "b": "},{", "line": `{"line":2,"answers":0}`},
	} {
		whole := alertOf(labels, now, now.Add(time.Hour+time.Nanosecond))
		whole.Annotations = labels.Clone()
		whole.GeneratorURL = "http://example.com/\n\"\x00é"
		whole.UpdatedAt = now.Add(time.Microsecond).UTC()
		whole.Timeout = true
		put(t, a, whole)
		shown, err := a.Get(whole.Fingerprint())
		if err != nil {
			t.Fatalf("%s: %v", name, err)
		}
		forget(t, a) // so that it is printed
		printed, err := a.Get(whole.Fingerprint())
		if err != nil {
			t.Fatalf("%s: %v", name, err)
		}
		if !reflect.DeepEqual(shown, whole) || !reflect.DeepEqual(printed, whole) {
			t.Errorf("%s: %#v and %#v came back of %#v", name, shown, printed, whole)
		}
	}
}

func manyLabels(count int) model.LabelSet {
	labels := model.LabelSet{}
	for at := 0; at < count; at++ {
		labels[model.LabelName(fmt.Sprint("name", at))] = model.LabelValue(fmt.Sprint("value", at))
	}
	return labels
}

func TestMomentsThatAreNotThere(t *testing.T) {
	a := startPlain(t)
	bare := &Alert{Alert: model.Alert{Labels: model.LabelSet{"a": "b"}, Annotations: model.LabelSet{}}}
	put(t, a, bare)
	got, err := a.Get(bare.Fingerprint())
	if err != nil {
		t.Fatal(err)
	}
	if !reflect.DeepEqual(got, bare) {
		t.Errorf("%#v came back of %#v", got, bare)
	}
	if got.Resolved() {
		t.Error("an alert without an end is resolved")
	}
	if err := a.Collect(time.Now()); err != nil {
		t.Fatal(err)
	}
	if len(pending(t, a)) != 1 {
		t.Error("an alert without an end was removed")
	}
}

func TestWhatCannotBeStoredIsNamedAndTheRestIsStored(t *testing.T) {
	a := startPlain(t)
	now := time.Now()
	faulty := map[string]*Alert{
		"isn't UTF-8":        alertOf(model.LabelSet{"a": "\xff"}, now, now),
		"out of range":       alertOf(model.LabelSet{"late": "b"}, now, time.Date(10000, 1, 1, 0, 0, 0, 0, time.UTC)),
		"E10 NoLabels":       alertOf(model.LabelSet{"empty": ""}, now, now),
		"E11 EndBeforeStart": alertOf(model.LabelSet{"turned": "b"}, now, now.Add(-1)),
	}
	var alerts []*Alert
	for _, it := range faulty {
		alerts = append(alerts, it, firing(len(alerts)))
	}
	err := a.Put(alerts...)
	var failed *PutErrors
	if !errors.As(err, &failed) || len(failed.Alerts) != len(faulty) || len(failed.Others) != 0 {
		t.Fatalf("%v", err)
	}
	for fault, it := range faulty {
		if !strings.Contains(err.Error(), fmt.Sprint(it.Labels)) || !strings.Contains(err.Error(), fault) {
			t.Errorf("%q, %v isn't in: %v", fault, it.Labels, err)
		}
		if got, err := a.Get(it.Fingerprint()); got != nil || err != nil {
			t.Errorf("%v: %v, %v", it.Labels, got, err)
		}
	}
	if stored := pending(t, a); len(stored) != len(faulty) {
		t.Errorf("%d are stored", len(stored))
	}
}

func TestLabelsWithoutAValueAreIgnored(t *testing.T) {
	a := startPlain(t)
	now := time.Now()
	put(t, a, alertOf(model.LabelSet{"a": "b", "empty": ""}, now, now.Add(time.Hour)))
	got, err := a.Get(model.LabelSet{"a": "b"}.Fingerprint())
	if err != nil || !reflect.DeepEqual(got.Labels, model.LabelSet{"a": "b"}) {
		t.Errorf("%v, %v", got, err)
	}
}

func TestMoreAlertsThanALineHolds(t *testing.T) {
	a := startPlain(t)
	it := a.Subscribe()
	defer it.Close()
	alerts := firings(0, 3*mostAlerts+5)
	put(t, a, alerts...)
	if got := take(t, it, len(alerts)); !reflect.DeepEqual(numbers(got), numbers(alerts)) {
		t.Error("they came in another order")
	}
	takesNothing(t, it)
	large := firings(0, 6)
	for _, it := range large {
		it.Annotations = model.LabelSet{"text": model.LabelValue(strings.Repeat("x", 3<<20))}
	}
	put(t, a, large...)
	if got := take(t, it, len(large)); !reflect.DeepEqual(numbers(got), numbers(large)) {
		t.Error("large ones came in another order")
	}
	huge := firing(0)
	huge.Annotations = model.LabelSet{"text": model.LabelValue(strings.Repeat("\x01", 2<<20))}
	if err := a.Put(huge, firing(9_000)); err == nil || !strings.Contains(err.Error(), "bytes") {
		t.Errorf("an alert of 12 MB: %v", err)
	}
	take(t, it, 1)
}

func TestEightPuttersAtOnce(t *testing.T) {
	// Fewer puts than the log has places, so that no reader is cut.
	const putters, each = 8, 30
	a := startPlain(t)
	var readers, work sync.WaitGroup
	for reader := 0; reader < 3; reader++ {
		it := a.Subscribe()
		defer it.Close()
		readers.Add(1)
		go func() {
			defer readers.Done()
			next := [putters]int{}
			for at := 0; at < putters*each; at++ {
				alert := <-it.Next()
				var putter, number int
				fmt.Sscanf(string(alert.Labels["n"]), "%d", &number)
				putter, number = number/each, number%each
				if number != next[putter] {
					t.Errorf("of putter %d came %d where %d is next", putter, number, next[putter])
				}
				next[putter] = number + 1
			}
		}()
	}
	for putter := 0; putter < putters; putter++ {
		work.Add(1)
		go func(putter int) {
			defer work.Done()
			for number := 0; number < each; number++ {
				if err := a.Put(firing(putter*each + number)); err != nil {
					t.Error(err)
				}
			}
		}(putter)
	}
	work.Wait()
	readers.Wait()
	if stored := pending(t, a); len(stored) != putters*each {
		t.Errorf("%d are stored", len(stored))
	}
}

func TestAHundredSubscriptions(t *testing.T) {
	const readers = 100
	a := startPlain(t)
	put(t, a, firings(0, 10)...)
	var iterators []*Iterator[Alert]
	for reader := 0; reader < readers; reader++ {
		it := a.Subscribe()
		iterators = append(iterators, it)
		put(t, a, firing(10+reader))
	}
	for reader, it := range iterators {
		got := take(t, it, 10+readers)
		seen := map[string]bool{}
		for at, n := range numbers(got) {
			seen[n] = true
			if at >= 10+reader && n != fmt.Sprint(at) {
				t.Fatalf("reader %d got %s as its %dth", reader, n, at)
			}
		}
		if len(seen) != 10+readers {
			t.Fatalf("reader %d got %d different alerts", reader, len(seen))
		}
		takesNothing(t, it)
	}
	for _, it := range iterators[:50] {
		it.Close()
	}
	put(t, a, firing(1000))
	for _, it := range iterators[50:] {
		if got := take(t, it, 1); numbers(got)[0] != "1000" {
			t.Fatalf("%v came", got)
		}
		it.Close()
	}
	waitUntil(t, "no lane is open", func() bool { return len(a.current.Load().readers.lanes()) == 0 })
	again := a.Subscribe()
	defer again.Close()
	take(t, again, 10+readers+1)
}

func waitUntil(t testing.TB, what string, holds func() bool) {
	t.Helper()
	for late := time.Now().Add(20 * time.Second); !holds(); time.Sleep(time.Millisecond) {
		if time.Now().After(late) {
			t.Fatalf("it never held that %s", what)
		}
	}
}

// A reader that takes nothing is cut off once what is read ahead for it and the log's places are full. Meanwhile another
// one gets all.
func TestAReaderThatTakesNothingIsCutAlone(t *testing.T) {
	a := startWith(t, Options{Places: 2})
	slow, quick := a.Subscribe(), a.Subscribe()
	defer slow.Close()
	defer quick.Close()
	const count = mostWaiting + mostComing + 5*mostAlerts
	for at := 0; at < count; at += mostAlerts {
		put(t, a, firings(at, at+mostAlerts)...)
		take(t, quick, mostAlerts)
		waitUntil(t, "the channel is full", func() bool { return len(slow.Next()) == ChannelLength })
	}
	for _, it := range a.current.Load().readers.members() {
		it.mutex.Lock()
		if room := mostWaiting + mostComing; len(it.waiting) > room {
			t.Errorf("%d alerts wait where %d have room", len(it.waiting), room)
		}
		it.mutex.Unlock()
	}
	put(t, a, firing(count))
	takes := timesUntil(t, slow, count)
	if len(takes) != count+1 {
		t.Errorf("%d of %d alerts came", len(takes), count+1)
	}
	if cuts := a.cuts.Load(); cuts != 1 {
		t.Errorf("%v cuts were counted", cuts)
	}
	if takes["0"] != 2 {
		t.Error("what it had got didn't come again with what is stored")
	}
	put(t, a, firing(count+1))
	if got := numbers(take(t, slow, 1)); got[0] != fmt.Sprint(count+1) {
		t.Errorf("%v came", got)
	}
	if got := numbers(take(t, quick, 2)); got[1] != fmt.Sprint(count+1) {
		t.Errorf("%v came", got)
	}
}

// members are those of all open lanes.
func (r *readers) members() (members []*member) {
	for _, l := range r.lanes() {
		l.mutex.Lock()
		for it := range l.members {
			members = append(members, it)
		}
		l.mutex.Unlock()
	}
	return members
}

func (r *readers) lanes() (lanes []*lane) {
	r.mutex.Lock()
	defer r.mutex.Unlock()
	for _, it := range r.open {
		lanes = append(lanes, it)
	}
	return lanes
}

// Readers come while a lot is stored and four goroutines put: each gets what is stored and all that comes, and none is cut.
func TestReadersThatJoinUnderLoadAreNotCut(t *testing.T) {
	const stored, joins, putters = 20_000, 3, 4
	a := startPlain(t)
	put(t, a, firings(0, stored)...)
	var all, stops atomic.Int64
	all.Store(stored)
	var putting sync.WaitGroup
	for putter := 0; putter < putters; putter++ {
		putting.Add(1)
		go func() {
			defer putting.Done()
			for stops.Load() == 0 {
				if err := a.Put(firing(int(all.Add(1)))); err != nil {
					t.Error(err)
				}
			}
		}()
	}
	var came [joins]atomic.Int64
	begun := time.Now()
	for join := range came {
		it, count := a.Subscribe(), &came[join]
		defer it.Close()
		go func() {
			for range it.Next() {
				count.Add(1)
			}
		}()
		waitUntil(t, "a reader has what is stored", func() bool { return count.Load() >= stored })
	}
	stops.Store(1)
	putting.Wait()
	t.Logf("%d puts in %v", all.Load()-stored, time.Since(begun))
	for join := range came {
		count := &came[join]
		waitUntil(t, "a reader has all", func() bool { return count.Load() == all.Load() })
	}
	if cuts := a.cuts.Load(); cuts != 0 {
		t.Errorf("%v cuts were counted", cuts)
	}
}

// Puts come as fast as they can, one at a time, and the log holds two batches only: what the readers take is read in time.
func TestAPutWaitsUntilTheLogIsRead(t *testing.T) {
	const count = 2000
	a := startWith(t, Options{Places: 2})
	var iterators []*Iterator[Alert]
	for reader := 0; reader < 3; reader++ {
		it := a.Subscribe()
		defer it.Close()
		iterators = append(iterators, it)
	}
	for at := 0; at < count; at++ {
		put(t, a, firing(at))
	}
	const all = count + 8*mostAlerts
	put(t, a, firings(count, all)...)
	for _, it := range iterators {
		if got := take(t, it, all); !reflect.DeepEqual(numbers(got), numbers(firings(0, all))) {
			t.Error("they came in another order")
		}
		takesNothing(t, it)
	}
	if cuts := a.cuts.Load(); cuts != 0 {
		t.Errorf("%v cuts were counted", cuts)
	}
}

// What is stored is printed once for each that joins the shared lane.
func TestTheSharedLaneIsJoinedInOneTurn(t *testing.T) {
	const stored = 40_000
	a := startPlain(t)
	h := a.current.Load()
	for lane := 0; lane < ownLanes; lane++ {
		h.readers.own <- struct{}{}
	}
	put(t, a, firings(0, stored)...)
	for join := 0; join < 2; join++ {
		begun := time.Now()
		it := a.Subscribe()
		defer it.Close()
		take(t, it, stored)
		if taken := time.Since(begun); taken > 10*time.Second {
			t.Errorf("join %d took %v", join, taken)
		}
	}
}

// timesUntil takes alerts up to the one of a number, and is how often each came.
func timesUntil(t testing.TB, it *Iterator[Alert], last int) map[string]int {
	seen := map[string]int{}
	for seen[fmt.Sprint(last)] == 0 {
		seen[numbers(take(t, it, 1))[0]]++
	}
	return seen
}

func TestASharedReaderThatStandsStillHoldsUpNobody(t *testing.T) {
	a := startPlain(t)
	var iterators []*Iterator[Alert]
	for reader := 0; reader < ownLanes+3; reader++ {
		it := a.Subscribe()
		defer it.Close()
		iterators = append(iterators, it)
	}
	slow, quick := iterators[ownLanes], iterators[ownLanes+1:]
	count := 2*mostWaiting + mostAlerts
	for at := 0; at < count; at += mostAlerts {
		put(t, a, firings(at, at+mostAlerts)...)
		for _, it := range quick {
			take(t, it, mostAlerts)
		}
	}
	for _, it := range quick {
		takesNothing(t, it)
	}
	put(t, a, firing(count))
	if seen := timesUntil(t, slow, count); len(seen) != count+1 {
		t.Errorf("%d of %d alerts came", len(seen), count+1)
	}
	if cuts := a.cuts.Load(); cuts == 0 {
		t.Errorf("%v cuts were counted", cuts)
	}
}

func TestClosedIteratorsFreeTheirLanes(t *testing.T) {
	a := startPlain(t)
	for turn := 0; turn < 50; turn++ {
		it := a.Subscribe()
		it.Close()
		it.Close()
	}
	waitUntil(t, "no lane is open", func() bool {
		return len(a.current.Load().readers.lanes()) == 0 && len(a.current.Load().readers.own) == 0
	})
}

// A leave that the program has no memory for is asked again, until it is done.
func TestALeaveThatIsRefused(t *testing.T) {
	t.Parallel()
	asked := filepath.Join(t.TempDir(), "leaves")
	path := writeProgram(t, `read -r configuration
		for ((n = 2; ; n++)); do
			read -r line || exit 0
			case $line in
			*'"subscribe"'*) echo "{\"line\":$n,\"answer\":\"subscribe\",\"lane\":0,\"opening\":0}" ;;
			*'"leave"'*)
				echo "$line" >>`+asked+`
				answers=('"leave","taken":0,"closed":false,"cut":false' '"refused","do":"leave","fault":"E0 NoMemory"')
				echo "{\"line\":$n,\"answer\":${answers[$(wc -l <`+asked+`) < 3]}}" ;;
			*) echo "{\"line\":$n,\"answer\":\"pending\"}" ;;
			esac
			echo "{\"line\":$n,\"answers\":1}"
		done`)
	a, err := begun(t.Name(), Options{Program: path})
	if err != nil {
		t.Fatal(err)
	}
	defer a.Close()
	a.Subscribe().Close()
	leaves := func() int {
		text, _ := os.ReadFile(asked)
		return strings.Count(string(text), "leave")
	}
	waitUntil(t, "it is asked a third time", func() bool { return leaves() == 3 })
	time.Sleep(2 * refusedPause)
	if count := leaves(); count != 3 {
		t.Errorf("it was asked %d times", count)
	}
}

// Four goroutines put and resolve, each its own label sets, while collections run: at the end what is known is what is stored.
func TestCollectionsBesidePutsLeaveWhatIsStored(t *testing.T) {
	const putters, each, labelSets = 4, 300, 2
	a := startPlain(t)
	var putting, collecting sync.WaitGroup
	stop := make(chan struct{})
	collecting.Add(1)
	go func() {
		defer collecting.Done()
		for {
			select {
			case <-stop:
				return
			default:
			}
			if err := a.Collect(time.Now()); err != nil {
				t.Error(err)
			}
		}
	}()
	for putter := 0; putter < putters; putter++ {
		putting.Add(1)
		go func(putter int) {
			defer putting.Done()
			for at := 0; at < each; at++ {
				alert := firing(putter*labelSets + at%labelSets)
				if at/labelSets%2 == 0 && at < each-labelSets {
					alert.EndsAt = alert.StartsAt
				}
				if err := a.Put(alert); err != nil {
					t.Error(err)
				}
			}
		}(putter)
	}
	putting.Wait()
	close(stop)
	collecting.Wait()
	if err := a.Collect(time.Now()); err != nil {
		t.Fatal(err)
	}
	stored, known := pending(t, a), a.current.Load().known.texts
	if len(stored) != putters*labelSets || len(known) != putters*labelSets {
		t.Errorf("%d are stored and %d known", len(stored), len(known))
	}
}

func TestWhatACollectionRemovesIsGone(t *testing.T) {
	a := startPlain(t)
	gone, kept := firing(0), firing(1)
	gone.EndsAt = gone.StartsAt
	put(t, a, gone, kept)
	if err := a.Collect(time.Now()); err != nil {
		t.Fatal(err)
	}
	if times := a.timesGone(gone); times != 1 || a.timesGone(kept) != 0 {
		t.Errorf("what was removed was gone %d times", times)
	}
	if known := len(a.current.Load().known.texts); known != 1 {
		t.Errorf("%d label sets are known", known)
	}
	if got, err := a.Get(gone.Fingerprint()); got != nil || err != nil {
		t.Errorf("%v, %v", got, err)
	}
}

// Subscriptions that share a lane come and go while alerts are put, each of its own label set and with the numbers of its
// putter in order: none may get one twice, or miss one before the last of a putter that it got.
func TestSharedSubscriptionsBesidePuts(t *testing.T) {
	// Fewer puts than the log has places, so that no reader is cut.
	const putters, each, readers, turns = 3, 80, 4, 40
	a := startPlain(t)
	for lane := 0; lane < ownLanes; lane++ {
		it := a.Subscribe()
		defer it.Close()
		go func() {
			for range it.Next() {
			}
		}()
	}
	var work sync.WaitGroup
	for putter := 0; putter < putters; putter++ {
		work.Add(1)
		go func(putter int) {
			defer work.Done()
			for number := 0; number < each; number++ {
				if err := a.Put(firing(putter*each + number)); err != nil {
					t.Error(err)
				}
			}
		}(putter)
	}
	for reader := 0; reader < readers; reader++ {
		work.Add(1)
		go func() {
			defer work.Done()
			for turn := 0; turn < turns; turn++ {
				it := a.Subscribe()
				judgeNumbers(t, readAWhile(it), each)
				it.Close()
			}
		}()
	}
	work.Wait()
}

// readAWhile takes alerts until none has come for ten milliseconds, or for a tenth of a second.
func readAWhile(it *Iterator[Alert]) (alerts []*Alert) {
	late := time.After(100 * time.Millisecond)
	for {
		select {
		case alert := <-it.Next():
			alerts = append(alerts, alert)
		case <-time.After(10 * time.Millisecond):
			return alerts
		case <-late:
			return alerts
		}
	}
}

func judgeNumbers(t *testing.T, alerts []*Alert, each int) {
	seen, counts, last := map[int]bool{}, map[int]int{}, map[int]int{}
	for _, text := range numbers(alerts) {
		var number int
		fmt.Sscan(text, &number)
		if seen[number] {
			t.Errorf("%d came twice", number)
		}
		seen[number] = true
		counts[number/each]++
		if number%each > last[number/each] {
			last[number/each] = number % each
		}
	}
	for putter, count := range counts {
		if count != last[putter]+1 {
			t.Errorf("%d alerts of putter %d came up to its %dth", count, putter, last[putter])
		}
	}
}
