// Package restoring puts a backup of an office and its record in place of what is there.
//
// The backup is copied into a folder beside the office, where the pair is judged and changed. Then a plan is written into that folder:
// from there on the same command finishes what a crash has interrupted, and no front starts before that. Until the last step the earlier
// office has a second name in the folder in which all that was there before is kept. The proved program refuses such a file, so nobody
// opens an office whose record is another one.
package restoring

import (
	"context"
	"errors"
	"fmt"
	"io"
	"os"
	"path/filepath"
	"syscall"
	"time"

	"rbac-node/internal/office"
)

// Options say what is restored, and in whose place.
type Options struct {
	// Backup is the folder of the backup, and Office the file of the office.
	Backup, Office string
	// Replaces says that what is there may be moved away.
	Replaces bool
	// Prepare judges a copy of the pair, and makes it what a front may begin with. It returns what it has done.
	Prepare func(ctx context.Context, office string) (string, error)
	// Out is for what was done.
	Out io.Writer
}

// Run restores a backup. If it fails, or is killed, what was there before is still there.
func Run(ctx context.Context, o Options) (err error) {
	for _, path := range []*string{&o.Backup, &o.Office} {
		if *path, err = filepath.Abs(*path); err != nil {
			return err
		}
	}
	folder := filepath.Dir(o.Office)
	owner, err := ownerOf(folder)
	if errors.Is(err, os.ErrNotExist) {
		return fmt.Errorf("%s doesn't exist: make it for the user of the front, as by install -d -m 700 -o rbac -g rbac %[1]s", folder)
	}
	if err != nil {
		return err
	}
	// Only root may read some backups, and everything else is for the user who has the office.
	b, err := openBackup(o.Backup, owner.uid)
	if err != nil {
		return fmt.Errorf("backup %s: %w", o.Backup, err)
	}
	defer b.Close()
	return owner.do(func() error { return o.run(ctx, b) })
}

func (o *Options) run(ctx context.Context, b *backup) error {
	lock, err := office.Lock(ctx, o.Office+".lock")
	if errors.Is(err, syscall.EWOULDBLOCK) {
		return fmt.Errorf("%s: a front has the office: stop it first, or name its unit by --unit", o.Office)
	}
	if err != nil {
		return err
	}
	defer lock.Close()
	r := replacement{o.Office}
	if err := r.judge(); err != nil {
		return err
	}
	switch earlier, err := r.plan(); {
	case err != nil:
		return err
	case earlier != nil:
		return o.finish(r, *earlier)
	}
	if is, err := r.isNeeded(); err != nil || is && !o.Replaces {
		if err == nil {
			err = fmt.Errorf("%s exists: nothing was done; with --replace it is moved away with its record, and kept", o.Office)
		}
		return err
	}
	p, err := o.prepare(ctx, r, b)
	if err != nil {
		_ = os.RemoveAll(r.folder()) // It has copies alone.
		return err
	}
	return o.finish(r, p)
}

// prepare makes all that is put in place, and a plan for that.
func (o *Options) prepare(ctx context.Context, r replacement, b *backup) (p plan, err error) {
	if err := os.RemoveAll(r.folder()); err != nil {
		return p, err
	}
	if err := os.Mkdir(r.folder(), 0o700); err != nil {
		return p, err
	}
	if err := b.copyTo(ctx, r.folder()); err != nil {
		return p, fmt.Errorf("backup %s: %w", o.Backup, err)
	}
	p = plan{Backup: o.Backup, Before: r.before() + time.Now().UTC().Format("20060102-150405.000000")}
	if p.Done, err = o.Prepare(ctx, r.in(officeName)); err != nil {
		return p, fmt.Errorf("backup %s: %w", o.Backup, err)
	}
	if p.HasRecord, err = exists(r.in(recordName)); err != nil {
		return p, err
	}
	return p, r.write(p)
}

// finish puts in place what was prepared, and says what was done.
func (o *Options) finish(r replacement, p plan) error {
	if err := r.finish(p); err != nil {
		return fmt.Errorf("the restore of %s isn't finished: %w; run the command again", p.Backup, err)
	}
	fmt.Fprintf(o.Out, "%s was restored from %s\n%s\n", o.Office, p.Backup, p.Done)
	if has, _ := exists(p.Before); has {
		fmt.Fprintf(o.Out, "what was there before is in %s\n", p.Before)
	}
	if p.Backup != o.Backup {
		return fmt.Errorf("an earlier command was interrupted, and is finished now: to restore %s, run the command again", o.Backup)
	}
	return nil
}

// An owner is the user and the group of a folder.
type owner struct{ uid, gid int }

func ownerOf(folder string) (owner, error) {
	about, err := os.Stat(folder)
	if err != nil {
		return owner{}, err
	}
	stat, is := about.Sys().(*syscall.Stat_t)
	if !is || !about.IsDir() {
		return owner{}, fmt.Errorf("%s is no folder", folder)
	}
	return owner{int(stat.Uid), int(stat.Gid)}, nil
}

// do does something as the owner, if root runs this program. So the files that are made belong to the owner, and whoever may write the
// folder can't lead root to another place by a link. Programs that are started meanwhile can't become root again.
func (o owner) do(work func() error) (err error) {
	if os.Geteuid() != 0 || o.uid == 0 {
		return work()
	}
	groups, err := syscall.Getgroups()
	if err != nil {
		return err
	}
	defer func() {
		for _, back := range []func() error{
			func() error { return syscall.Setresuid(0, 0, 0) },
			func() error { return syscall.Setresgid(0, 0, 0) },
			func() error { return syscall.Setgroups(groups) },
		} {
			if failed := back(); err == nil {
				err = failed
			}
		}
	}()
	if err := syscall.Setgroups([]int{o.gid}); err != nil {
		return err
	}
	if err := syscall.Setresgid(o.gid, o.gid, 0); err != nil {
		return err
	}
	if err := syscall.Setresuid(o.uid, o.uid, 0); err != nil {
		return err
	}
	return work()
}
