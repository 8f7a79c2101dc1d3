package record

import (
	"archive/tar"
	"context"
	"errors"
	"fmt"
	"io"
	"net/http"
	"os"
	"path/filepath"
	"strconv"
	"time"

	"rbac-node/internal/disk"
	"rbac-node/internal/office"
	"rbac-node/internal/pause"
	"rbac-node/internal/recorded"
)

// fetchedSuffix is added to the folder of a record for one that is fetched from another node.
const fetchedSuffix = ".fetched"

// ServeHTTP sends the record as it is now to another node, as an archive of its files. One is sent at once, since it is copied before.
func (f *Follower) ServeHTTP(w http.ResponseWriter, r *http.Request) {
	if !f.HasBegun() || !f.sending.TryLock() {
		http.Error(w, "the record begins, or is being sent to another node", http.StatusServiceUnavailable)
		return
	}
	defer f.sending.Unlock()
	if err := f.send(r.Context(), w); err != nil {
		f.Log.Warn("the record isn't sent", "why", err)
		// What was sent already ends early, and is refused.
		http.Error(w, "there is no record", http.StatusNotFound)
	}
}

func (f *Follower) send(ctx context.Context, w http.ResponseWriter) error {
	release, err := share(ctx, f.dir)
	if err != nil {
		return err
	}
	defer release()
	files, err := filesOf(f.dir)
	if err != nil {
		return err
	}
	begin, err := beginOf(ctx, files[0])
	if err != nil {
		return err
	}
	copied, end, err := f.copyCurrent(ctx)
	if err != nil {
		return err
	}
	defer end()
	files[len(files)-1] = copied
	w.Header().Set("Content-Type", "application/x-tar")
	w.Header().Set(recorded.FirstField, strconv.FormatInt(begin.n+1, 10))
	archive := tar.NewWriter(w)
	for _, path := range files {
		if err := addFile(archive, path); err != nil {
			return err
		}
	}
	return archive.Close()
}

// copyCurrent copies the file at hand as it is now.
func (f *Follower) copyCurrent(ctx context.Context) (path string, end func(), err error) {
	var size int64
	if about, err := os.Stat(f.path()); err == nil {
		size = about.Size()
	}
	folder, end, err := office.ScratchOf("record-sent", f.dir, f.dir).New(size)
	if err != nil {
		return "", nil, err
	}
	path = filepath.Join(folder, fileName)
	if err := copyRecord(ctx, []string{f.path()}, folder); err != nil {
		end()
		return "", nil, err
	}
	return path, end, nil
}

func addFile(archive *tar.Writer, path string) error {
	file, err := os.Open(path)
	if err != nil {
		return err
	}
	defer file.Close()
	about, err := file.Stat()
	if err != nil {
		return err
	}
	if err := archive.WriteHeader(&tar.Header{Name: filepath.Base(path), Mode: 0o600, Size: about.Size()}); err != nil {
		return err
	}
	_, err = io.Copy(archive, file)
	return err
}

// fetchPatience is how long a node waits for the whole record of one that may give it later, as to another node at the moment.
const fetchPatience = 30 * time.Second

// fetch makes the record of another node that of this one, if it has the entry of a head and all that this one has. It prefers a whole one.
func (f *Follower) fetch(ctx context.Context, head Head, own *Head, from recorded.Fetch) bool {
	making := f.dir + fetchedSuffix
	defer os.RemoveAll(making) // It has another name if all went well.
	for began, most := time.Now(), int64(1); ; {
		err := from(ctx, most, func(text io.Reader) error {
			if err := extract(text, making); err != nil {
				return err
			}
			return f.judgeFetched(ctx, making, head, own)
		})
		if err == nil {
			err = f.replaceBy(making)
		}
		if err == nil {
			return true
		}
		f.Log.Warn("no record of another node was fetched", "first", most, "why", err)
		switch {
		case errors.Is(err, recorded.ErrLater) && time.Since(began) < fetchPatience && pause.For(ctx, retryPause) == nil:
		case most == 1 && head.N > 1:
			most = head.N // Better a part of it than none.
		default:
			return false
		}
	}
}

// replaceBy puts a folder in place of that of the record.
func (f *Follower) replaceBy(made string) error {
	if err := disk.SyncAll(made); err != nil {
		return err
	}
	if err := os.RemoveAll(f.dir); err != nil {
		return err
	}
	if err := os.Rename(made, f.dir); err != nil {
		return err
	}
	return disk.Sync(filepath.Dir(f.dir))
}

// extract writes the files of an archive into a new folder.
func extract(text io.Reader, folder string) error {
	if err := os.RemoveAll(folder); err != nil {
		return err
	}
	if err := os.Mkdir(folder, 0o700); err != nil {
		return err
	}
	archive := tar.NewReader(text)
	for {
		header, err := archive.Next()
		if errors.Is(err, io.EOF) {
			return nil
		}
		if err != nil {
			return err
		}
		if _, _, isPart := namesOf(header.Name); header.Name != filepath.Base(header.Name) || header.Name != fileName && !isPart {
			return fmt.Errorf("%q is no file of a record", header.Name)
		}
		file, err := os.OpenFile(filepath.Join(folder, header.Name), os.O_WRONLY|os.O_CREATE|os.O_EXCL, 0o600)
		if err != nil {
			return err
		}
		_, err = io.Copy(file, archive)
		if err := disk.Close(file, err); err != nil {
			return err
		}
	}
}

// judgeFetched refuses a record that lacks an entry which is known, ends it at a head, and verifies what is left as `record verify` does. The
// head is that of a snapshot that most nodes have, and binds all entries before it, but not with which rows a part begins: a node that has
// wrong rows may have divided its record there.
func (f *Follower) judgeFetched(ctx context.Context, dir string, head Head, own *Head) error {
	files, err := filesOf(dir)
	if err != nil {
		return err
	}
	wanted := []Head{head}
	if own != nil {
		wanted = append(wanted, *own)
	}
	for _, one := range wanted {
		i, err := fileOf(ctx, files, one.N)
		if err == nil {
			err = has(ctx, files[i], one)
		}
		if err != nil {
			return err
		}
	}
	if err := endAt(ctx, dir, head); err != nil {
		return err
	}
	rows, err := f.rowsGivenBy(ctx, dir)
	if err != nil {
		return err
	}
	return f.withCopy(ctx, f.Office, func(_, wanted string) error {
		if rows != wanted {
			return errDiffers
		}
		return nil
	})
}

// rowsGivenBy verifies a record in a folder, and returns the digest of the rows that it gives.
func (f *Follower) rowsGivenBy(ctx context.Context, dir string) (string, error) {
	files, err := filesOf(dir)
	if err != nil {
		return "", err
	}
	scratch, end, err := newScratch(f.Office, f.dir)
	if err != nil {
		return "", err
	}
	defer end()
	heads, err := newKnownLinks(nil)
	if err != nil {
		return "", err
	}
	v := &verifier{Tool: &Tool{Data: dir, Program: f.Program, Out: io.Discard}, scratch: scratch, heads: heads}
	last := len(files) - 1
	for _, path := range files[:last] {
		if err := v.file(ctx, path); err != nil {
			return "", err
		}
	}
	err = withView(ctx, files[last], func(opened *view) error { return v.read(ctx, opened, true) })
	return v.rows, err
}

// endAt removes what a record has after a head, which nobody has vouched for. It comes again from the log.
func endAt(ctx context.Context, dir string, head Head) error {
	files, err := filesOf(dir)
	if err != nil {
		return err
	}
	i, err := fileOf(ctx, files, head.N)
	if err != nil {
		return err
	}
	current := files[len(files)-1]
	for _, path := range files[i+1:] {
		if err := os.Remove(path); err != nil {
			return err
		}
	}
	if files[i] != current {
		if err := os.Rename(files[i], current); err != nil {
			return err
		}
	}
	return removeAfter(ctx, current, head.N)
}

// firstHere returns the number of the first entry that is here, or 0 if nobody knows it.
func (r *Record) firstHere() int64 {
	files, err := filesOf(r.dir)
	if err != nil {
		return 0
	}
	if first, _, is := namesOf(files[0]); is {
		return first
	}
	begin, err := beginOf(r.life, files[0])
	if err != nil {
		return 0
	}
	return begin.n + 1
}
